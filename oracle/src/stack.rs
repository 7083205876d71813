//! The least stack on which deep images are answered. An overflow ends the
//! process, so each try is a process of its own: this program again.

use std::io;
use std::process::{Command, Stdio};
use std::thread;

use crate::answer::PROGRAM_PLACES;
use crate::format::{Edition, Entry};
use crate::generate::deep::{in_no_order, through_again, through_entries, Chain, Link, Wrapper};
use crate::import::import;
use crate::library::Library;
use crate::model::Schema;
use crate::typeck::{check, compute_wire_sizes};

/// Stacks in KiB between which the least is searched, and how closely, which
/// is one part in `CLOSE` for long ones.
const LEAST: u64 = 16;
const MOST: u64 = 1 << 20;
const STEP: u64 = 4;
const CLOSE: u64 = 1_000;

/// What a program is usually given, in KiB, and what `vexcheck` keeps of it for
/// itself: the check has to get by with the rest, those cases aside that are
/// known to end the program.
pub const PROGRAM: u64 = 8 << 10;
const KEPT: u64 = 320;

/// A figure may be exceeded by one part in so many.
const SLACK: u64 = 20;

/// Least KiB of each case by subject, as `stack --measure` prints them. The
/// figures of the Rust are those of rustc 1.95 and are not held. In edition two only
/// the library's check follows elements; 0 stands for what is not measured.
#[rustfmt::skip]
const RECORDED: [[u64; 4]; 15] = [
    [7376, 7376, 1620, 1624], // 512 declared messages, the outermost first
    [7376, 7376, 1620, 1624], // 512 messages, one declared
    [7376, 7376, 1636, 1640], // 512 unions
    [7048, 7048, 1540, 1544], // 512 newtypes below a message
    [7216, 7216, 1580, 1584], // 512 messages and newtypes in turns
    [7376, 7376, 1620, 1624], // 512 messages, Fixed
    [7376, 7376, 1620, 1624], // 512 messages, Result
    [7376, 7376, 3108, 3112], // 512 messages, Deltas
    [1136, 1136, 136, 136], // 512 messages, no wrappers
    [1136, 2752, 136, 136], // 512 messages, no wrappers, no order
    [14064, 14064, 3068, 3068], // 2 messages, newtypes gone through again
    [21056, 21056, 4592, 4592], // 3 messages, newtypes gone through again
    [28000, 28000, 6112, 6112], // 4 messages, newtypes gone through again
    [0, 7176, 0, 0], // 512 limited maps, edition two
    [0, 1188, 0, 0], // 512 limited maps, edition two, no wrappers
];

pub struct Case {
    pub name: String,
    pub image: Vec<u8>,
    pub entry: Entry,
    recorded: [u64; 4],
}

/// The library for an entry, if there is one.
pub type Ours<'a> = &'a dyn Fn(Entry) -> Option<Library>;

impl Case {
    /// The least KiB on which a subject answered when it was measured.
    pub fn recorded(&self, subject: Subject) -> u64 {
        self.recorded[subject as usize]
    }

    /// Whether the program, on its usual stack, is known to end by a signal.
    pub fn ends_program(&self) -> bool {
        self.recorded(Subject::Check) > PROGRAM
    }

    /// KiB on which a subject of ours has to answer.
    fn held(&self, subject: Subject) -> u64 {
        let figure = self.recorded(subject);
        let held = (figure + figure / SLACK).next_multiple_of(STEP);
        match self.ends_program() {
            true => held,
            false => held.min(PROGRAM - KEPT),
        }
    }
}

/// All cases, those of edition one first.
pub fn cases() -> Vec<Case> {
    let one = deep_schemas().into_iter();
    let one = one.map(|(name, schema)| (name, schema, Entry::ONE));
    let two = [("", 30), (", no wrappers", 0)].map(|(more, levels)| {
        let name = format!("512 limited maps, edition two{more}");
        (name, through_entries(512, levels), Entry::TWO)
    });
    let cases: Vec<(String, Schema, Entry)> = one.chain(two).collect();
    assert_eq!(cases.len(), RECORDED.len());
    let cases = cases.into_iter().zip(RECORDED);
    cases
        .map(|((name, schema, entry), recorded)| Case {
            name,
            image: schema.bytes(entry.edition),
            entry,
            recorded,
        })
        .collect()
}

fn deep_schemas() -> Vec<(String, Schema)> {
    let chain = |link, wrapper| Chain {
        slots: 512,
        link,
        wrapper,
        levels: 31,
    };
    let messages = chain(Link::Message, Wrapper::Optional);
    let mut cases = vec![
        (
            "512 declared messages, the outermost first".into(),
            messages.in_reverse(),
        ),
        ("512 messages, one declared".into(), messages.below_one()),
    ];
    let links = [
        ("unions", Link::Union),
        ("newtypes below a message", Link::Newtype),
        ("messages and newtypes in turns", Link::Behind),
    ];
    for (name, link) in links {
        let schema = chain(link, Wrapper::Optional).below_one();
        cases.push((format!("512 {name}"), schema));
    }
    for wrapper in [Wrapper::Fixed, Wrapper::Result, Wrapper::Deltas] {
        let schema = chain(Link::Message, wrapper).below_one();
        cases.push((format!("512 messages, {wrapper:?}"), schema));
    }
    let bare = Chain {
        levels: 0,
        ..messages
    };
    cases.push(("512 messages, no wrappers".into(), bare.below_one()));
    cases.push(("512 messages, no wrappers, no order".into(), in_no_order()));
    for messages in [2, 3, 4] {
        let name = format!("{messages} messages, newtypes gone through again");
        cases.push((name, through_again(messages)));
    }
    cases
}

/// Those that `vexcheck` reads.
pub fn program_cases() -> Vec<Case> {
    let cases = cases().into_iter();
    cases.filter(|case| case.entry == Entry::ONE).collect()
}

/// What is run on the small stack.
#[derive(Debug, Clone, Copy, PartialEq, Eq)]
pub enum Subject {
    Sizes,
    Check,
    RustSizes,
    RustCheck,
}

impl Subject {
    pub const ALL: [Subject; 4] = [
        Subject::Sizes,
        Subject::Check,
        Subject::RustSizes,
        Subject::RustCheck,
    ];

    pub fn name(self) -> &'static str {
        match self {
            Subject::Sizes => "sizes",
            Subject::Check => "check",
            Subject::RustSizes => "rust-sizes",
            Subject::RustCheck => "rust-check",
        }
    }

    fn is_ours(self) -> bool {
        matches!(self, Subject::Sizes | Subject::Check)
    }
}

/// Holds our check and sizes to the figures of each case, and prints them;
/// false if one is exceeded. Without a library there is nothing to hold.
pub fn hold(ours: Ours<'_>) -> io::Result<bool> {
    heading("recorded KiB (held to)", &Subject::ALL);
    let (mut exceeded, mut stale) = (0, 0);
    let mut notes = Vec::new();
    for (index, case) in cases().iter().enumerate() {
        print!("{:46}{:>7}", case.name, case.image.len());
        for subject in Subject::ALL {
            let (figure, held) = (case.recorded(subject), case.held(subject));
            if figure == 0 {
                print!("{:>16}", "-");
                continue;
            }
            if !subject.is_ours() || !measurable(subject, case.entry, ours) {
                print!("{figure:>16}");
                continue;
            }
            print!("{:>16}", format!("{figure} ({held})"));
            if !runs(index, subject, held)? {
                exceeded += 1;
                notes.push((index, subject, "EXCEEDED"));
            } else if runs(index, subject, figure - figure / SLACK)? {
                stale += 1;
                notes.push((index, subject, "less than recorded"));
            }
        }
        println!();
    }
    for (index, subject, note) in notes {
        let (case, name) = (&cases()[index], subject.name());
        let least = least(index, subject)?.map_or("over 1 GiB".into(), |kib| kib.to_string());
        println!("{}: {name} takes {least} KiB, {note}", case.name);
    }
    if stale > 0 {
        println!("{stale} figures can be lowered: `stack --measure` prints the table");
    }
    let verdict = match exceeded {
        0 => "no figure is exceeded".into(),
        count => format!("{count} figures are EXCEEDED"),
    };
    println!("stack: {} cases, {verdict}", RECORDED.len());
    Ok(exceeded == 0)
}

/// Prints the least stack of each case in KiB, in the form of `RECORDED`.
/// Without a library only the Rust is measured.
pub fn measure(ours: Ours<'_>) -> io::Result<()> {
    for (index, case) in cases().iter().enumerate() {
        let mut figures = Vec::new();
        for subject in Subject::ALL {
            let least = match measurable(subject, case.entry, ours) {
                true => least(index, subject)?,
                false => Some(0),
            };
            figures.push(least.map_or("MOST".into(), |kib| kib.to_string()));
        }
        println!("    [{}], // {}", figures.join(", "), case.name);
    }
    Ok(())
}

fn heading(what: &str, subjects: &[Subject]) {
    print!("{what:46}{:>7}", "bytes");
    subjects.iter().for_each(|one| print!("{:>16}", one.name()));
    println!();
}

fn measurable(subject: Subject, entry: Entry, ours: Ours<'_>) -> bool {
    if entry.edition == Edition::Two && subject != Subject::Check {
        return false;
    }
    match ours(entry) {
        None => !subject.is_ours(),
        Some(ours) => match subject {
            Subject::Sizes => ours.sizes.is_some(),
            Subject::Check => ours.check.is_some(),
            Subject::RustSizes | Subject::RustCheck => true,
        },
    }
}

/// The least stack, by halving what is left between too little and enough.
fn least(case: usize, subject: Subject) -> io::Result<Option<u64>> {
    let mut enough = LEAST;
    while !runs(case, subject, enough)? {
        if enough >= MOST {
            return Ok(None);
        }
        enough *= 2;
    }
    let mut little = enough / 2;
    let close = STEP.max(enough / CLOSE);
    while enough - little > close {
        let middle = ((little + enough) / 2).next_multiple_of(STEP);
        if runs(case, subject, middle)? {
            enough = middle;
        } else {
            little = middle;
        }
    }
    Ok(Some(enough))
}

/// Whether this program answers a case on a stack of so many KiB.
fn runs(case: usize, subject: Subject, stack: u64) -> io::Result<bool> {
    let status = Command::new(std::env::current_exe()?)
        .args(["stack", "--subject", subject.name()])
        .args(["--case", &case.to_string(), "--kib", &stack.to_string()])
        .stdout(Stdio::null())
        .stderr(Stdio::null())
        .status()?;
    Ok(status.success())
}

/// Answers one case on a stack of so many KiB; does not return if it is too
/// small.
pub fn run(case: &Case, subject: Subject, ours: Ours<'_>, stack: u64) {
    let image = case.image.clone();
    let ours = ours(case.entry);
    let builder = thread::Builder::new().stack_size(stack as usize * 1024);
    let worker = builder.spawn(move || answer(&image, subject, ours));
    let worker = worker.expect("the system starts a thread");
    worker.join().expect("a case is answered");
}

fn answer(image: &[u8], subject: Subject, ours: Option<Library>) {
    let mut sizes = vec![0; PROGRAM_PLACES.sizes as usize];
    let mut findings = vec![0; PROGRAM_PLACES.findings as usize];
    let library = || ours.expect("ours is measured only if it is there");
    match subject {
        Subject::Sizes => {
            let size = library().sizes.expect("measured only if it is there");
            assert_eq!(size(image, &mut sizes).number, 0);
        }
        Subject::Check => {
            let check = library().check.expect("measured only if it is there");
            assert_eq!(check(image, &mut sizes, &mut findings).number, 0);
        }
        Subject::RustSizes => {
            let mut imported = import(image, Edition::One).expect("the cases are accepted");
            compute_wire_sizes(&mut imported.schema);
        }
        Subject::RustCheck => {
            let mut imported = import(image, Edition::One).expect("the cases are accepted");
            check(&mut imported.schema);
        }
    }
}
