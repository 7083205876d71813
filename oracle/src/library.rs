//! Calls of the ported library, or of one with its interface: which calls an
//! image is tried with, what each answers, and what it has to answer.

use std::fmt;

use crate::answer::{Answer, Places, TooLong, Whole, PROGRAM_PLACES};
use crate::format::{Entry, SLOT_LIMIT};

/// `number` 0 is accepted, with a count as `value`; else it is the refusal and
/// `value` its place.
#[repr(C)]
#[derive(Debug, Clone, Copy, PartialEq, Eq)]
pub struct Verdict {
    pub number: u64,
    pub value: u64,
}

/// Fills in where each slot starts; the value is the slot count.
pub type Reader = fn(&[u8], &mut [usize]) -> Verdict;
/// Fills in three numbers a slot; the value is 0.
pub type Sizer = fn(&[u8], &mut [u64]) -> Verdict;
/// Fills in sizes, and six numbers a finding; the value is the finding count.
pub type Checker = fn(&[u8], &mut [u64], &mut [u32]) -> Verdict;

/// The functions for images of one edition and one layout.
#[derive(Clone, Copy)]
pub struct Library {
    pub entry: Entry,
    pub read: Reader,
    /// Only the packed layout of edition one has a function for sizes alone.
    pub sizes: Option<Sizer>,
    /// None leaves the findings out, which take longest to compare.
    pub check: Option<Checker>,
}

/// A function of the library, and the places lent to it.
#[derive(Debug, Clone, Copy, PartialEq, Eq)]
pub enum Call {
    Read { starts: usize },
    Sizes { sizes: usize },
    Check { sizes: usize, findings: usize },
}

/// What a call answered, and the whole of its tables afterwards.
#[derive(Debug, Clone, PartialEq, Eq)]
pub struct Reply {
    pub verdict: Verdict,
    /// Slot starts or sizes.
    pub table: Vec<u64>,
    pub findings: Vec<u32>,
    /// A place past a lent table was written.
    pub beyond: bool,
}

/// What tables hold beforehand, so that a place left alone is seen.
const MARK: u64 = 0xa5a5_a5a5_a5a5_a5a5;
const FINDING_MARK: u32 = MARK as u32;
/// Places kept past each table.
const GUARD: usize = 4;

impl Library {
    /// Makes a call with marked tables.
    pub fn reply(&self, image: &[u8], call: Call) -> Reply {
        match call {
            Call::Read { starts } => {
                let mut table = vec![MARK as usize; starts + GUARD];
                let verdict = (self.read)(image, &mut table[..starts]);
                let table = table.into_iter().map(|start| start as u64).collect();
                reply(verdict, table, vec![FINDING_MARK; GUARD])
            }
            Call::Sizes { sizes } => {
                let mut table = vec![MARK; sizes + GUARD];
                let size = self.sizes.expect("called only if there is one");
                let verdict = size(image, &mut table[..sizes]);
                reply(verdict, table, vec![FINDING_MARK; GUARD])
            }
            Call::Check { sizes, findings } => {
                let mut table = vec![MARK; sizes + GUARD];
                let mut found = vec![FINDING_MARK; findings + GUARD];
                let check = self.check.expect("called only if there is one");
                let verdict = check(image, &mut table[..sizes], &mut found[..findings]);
                reply(verdict, table, found)
            }
        }
    }
}

/// Takes the guards off the tables.
fn reply(verdict: Verdict, mut table: Vec<u64>, mut findings: Vec<u32>) -> Reply {
    let table_guard = table.split_off(table.len() - GUARD);
    let finding_guard = findings.split_off(findings.len() - GUARD);
    Reply {
        verdict,
        table,
        findings,
        beyond: table_guard != [MARK; GUARD] || finding_guard != [FINDING_MARK; GUARD],
    }
}

/// What a call has to answer.
pub fn expected(whole: &Whole, call: Call) -> Result<Reply, TooLong> {
    Ok(match call {
        Call::Read { starts } => answered(reading(whole), starts, 0),
        Call::Sizes { sizes } => answered(whole.sizes_answer(sizes as u64)?, sizes, 0),
        Call::Check { sizes, findings } => {
            let places = Places {
                sizes: sizes as u64,
                findings: findings as u64,
            };
            answered(whole.answer(places)?, sizes, findings)
        }
    })
}

/// Reading counts slots, and its table is where they start.
fn reading(whole: &Whole) -> Answer {
    match whole.refusal() {
        Some(refusal) => refusal.into(),
        None => Answer::Accepted {
            count: whole.starts.len() as u64,
            sizes: whole.starts.iter().map(|&start| start.into()).collect(),
            findings: Vec::new(),
        },
    }
}

/// An answer in tables of these lengths: zeros after what it fills in.
fn answered(answer: Answer, places: usize, finding_places: usize) -> Reply {
    let (number, value, mut table, mut findings) = match answer {
        Answer::Refused { number, place } => (number, place, Vec::new(), Vec::new()),
        Answer::Accepted {
            count,
            sizes,
            findings,
        } => (0, count, sizes, findings),
    };
    table.resize(places, 0);
    findings.resize(finding_places, 0);
    Reply {
        verdict: Verdict { number, value },
        table,
        findings,
        beyond: false,
    }
}

/// Lengths of tables that a call is tried with, the exact one being known.
fn lengths(exact: usize, usual: usize) -> Vec<usize> {
    let mut lengths = vec![usual, exact, exact + 1, exact + 7, 0];
    lengths.extend(exact.checked_sub(1));
    lengths.sort_unstable();
    lengths.dedup();
    lengths
}

/// The calls that an image is tried with.
pub fn calls(whole: &Whole, library: Library) -> Vec<Call> {
    let slots = whole.starts.len();
    let mut calls = vec![Call::Read {
        starts: SLOT_LIMIT as usize,
    }];
    // A table of another length gets as many starts as fit.
    calls.extend(slots.checked_sub(1).map(|starts| Call::Read { starts }));
    let sizes = lengths(3 * slots, PROGRAM_PLACES.sizes as usize);
    if library.sizes.is_some() {
        calls.extend(sizes.iter().map(|&sizes| Call::Sizes { sizes }));
    }
    if library.check.is_some() {
        calls.extend(check_calls(whole, &sizes));
    }
    calls
}

/// Each length of one table with the usual length of the other, and both
/// exact, both one short.
fn check_calls(whole: &Whole, sizes: &[usize]) -> Vec<Call> {
    let usual = (
        PROGRAM_PLACES.sizes as usize,
        PROGRAM_PLACES.findings as usize,
    );
    let exact = (
        3 * whole.starts.len(),
        whole.finding_places().unwrap_or_default(),
    );
    let mut pairs = vec![
        exact,
        (exact.0.saturating_sub(1), exact.1.saturating_sub(1)),
    ];
    pairs.extend(sizes.iter().map(|&sizes| (sizes, usual.1)));
    let findings = lengths(exact.1, usual.1);
    pairs.extend(findings.iter().map(|&findings| (usual.0, findings)));
    pairs.sort_unstable();
    pairs.dedup();
    let call = |(sizes, findings)| Call::Check { sizes, findings };
    pairs.into_iter().map(call).collect()
}

/// The Rust side with the library's interface, sizes and findings included.
pub const REFERENCE: Library = Library {
    sizes: Some(|image, sizes| {
        let call = Call::Sizes { sizes: sizes.len() };
        let reply = told(&Whole::sizes_of(image, Entry::ONE), call);
        sizes.copy_from_slice(&reply.table);
        reply.verdict
    }),
    ..reference(
        Entry::ONE,
        |image, starts| read(image, Entry::ONE, starts),
        |image, sizes, findings| check(image, Entry::ONE, sizes, findings),
    )
};

/// The same for edition two.
pub const REFERENCE_TWO: Library = reference(
    Entry::TWO,
    |image, starts| read(image, Entry::TWO, starts),
    |image, sizes, findings| check(image, Entry::TWO, sizes, findings),
);

/// The same for the head board, in both editions.
pub const REFERENCE_ALIGNED: Library = reference(
    Entry::ALIGNED,
    |image, starts| read(image, Entry::ALIGNED, starts),
    |image, sizes, findings| check(image, Entry::ALIGNED, sizes, findings),
);
pub const REFERENCE_ALIGNED_TWO: Library = reference(
    Entry::ALIGNED_TWO,
    |image, starts| read(image, Entry::ALIGNED_TWO, starts),
    |image, sizes, findings| check(image, Entry::ALIGNED_TWO, sizes, findings),
);

const fn reference(entry: Entry, read: Reader, check: Checker) -> Library {
    Library {
        entry,
        read,
        sizes: None,
        check: Some(check),
    }
}

fn read(image: &[u8], entry: Entry, starts: &mut [usize]) -> Verdict {
    let call = Call::Read {
        starts: starts.len(),
    };
    let reply = told(&Whole::sizes_of(image, entry), call);
    for (place, &start) in starts.iter_mut().zip(&reply.table) {
        *place = start as usize;
    }
    reply.verdict
}

fn check(image: &[u8], entry: Entry, sizes: &mut [u64], findings: &mut [u32]) -> Verdict {
    let call = Call::Check {
        sizes: sizes.len(),
        findings: findings.len(),
    };
    let reply = told(&Whole::of(image, entry), call);
    sizes.copy_from_slice(&reply.table);
    findings.copy_from_slice(&reply.findings);
    reply.verdict
}

fn told(whole: &Whole, call: Call) -> Reply {
    expected(whole, call).expect("called only on images that do not take too long")
}

impl fmt::Display for Call {
    fn fmt(&self, out: &mut fmt::Formatter<'_>) -> fmt::Result {
        match self {
            Call::Read { starts } => write!(out, "vexil_read, {starts} starts"),
            Call::Sizes { sizes } => write!(out, "vexil_sizes, {sizes} sizes"),
            Call::Check { sizes, findings } => {
                write!(out, "vexil_check, {sizes} sizes, {findings} findings")
            }
        }
    }
}

impl fmt::Display for Reply {
    fn fmt(&self, out: &mut fmt::Formatter<'_>) -> fmt::Result {
        let Verdict { number, value } = self.verdict;
        let table = used(&self.table);
        write!(
            out,
            "number {number}, value {value}, table {table:?} then zeros"
        )?;
        if !self.findings.is_empty() {
            write!(out, ", findings {:?} then zeros", used(&self.findings))?;
        }
        if self.beyond {
            write!(out, ", and places past a table written")?;
        }
        Ok(())
    }
}

/// The table up to its last number that is not 0.
fn used<T: PartialEq + From<u8>>(table: &[T]) -> &[T] {
    let last = table.iter().rposition(|number| *number != T::from(0));
    &table[..last.map_or(0, |last| last + 1)]
}
