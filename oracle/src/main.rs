//! Commands of the oracle; `main` without arguments lists them.

use std::fs::File;
use std::io::{self, BufWriter, Read, Write};
use std::path::Path;
use std::process::{Command, ExitCode};
use std::time::Instant;

use oracle::answer::{lines, Answer, TooLong, Whole, PATIENT_STEP_LIMIT, PROGRAM_PLACES};
use oracle::bench::bench;
use oracle::compare::{compare, exhaustive, smallest_difference, Difference, Outcome, Selection};
use oracle::example::bond_report;
use oracle::export::export;
use oracle::format::{Edition, Entry, Layout, SLOT_LIMIT};
use oracle::generate::{families, family_named, Families};
use oracle::lengths;
use oracle::library::{Call, Library, Verdict};
use oracle::program;
use oracle::record::{record, record_lines, write_images};
use oracle::stack::{self, Subject};
use oracle::stress;
use oracle::survey::survey;
use oracle::tally::{COLUMNS, TOO_LONG};
use oracle::workers::on_long_stack;

const USAGE: &str = "\
oracle compare --count N --seed S [--family F]   ours and the Rust on generated images
oracle exhaustive --bytes N                      ours and the Rust on all short images
oracle read < image                              what ours answers, and where the slots start
oracle shrink < image                            the smallest image that differs like this one
oracle survey --count N --seed S [--family F]    whole answers of the Rust alone, counted
oracle images --count N --seed S --out FOLDER    images that are not long, a file each
oracle answer < image                            the lines of vexcheck
oracle families                                  the families of generated images
These take --edition 1, which is meant where it is not said, or --edition 2; and --layout packed,
which is meant where it is not said, or --layout aligned, the head board. This takes an edition:
oracle export-example > image                    the bond report as an image
The others take neither; lengths and bench try both of each:
oracle record --count N --seed S --out FILE      images and how they are read
oracle record-lines --count N --seed S --out FILE  images and the lines of vexcheck
oracle program --binary FILE --count N --seed S  a vexcheck and the Rust on generated images
oracle stress --binary FILE --count N --seed S   a vexcheck and the Rust on deep images
oracle lengths --count N --seed S                enumerated lengths beside the size tables
oracle bench                                     times of reading, sizes, check; ratios
oracle stack                                     deep images on stacks of the recorded size
oracle stack --measure                           the least stacks, to be recorded
compare, exhaustive, read and shrink need the feature `ours`, which links the library.
";

type Failure = Box<dyn std::error::Error>;

fn main() -> ExitCode {
    let arguments: Vec<String> = std::env::args().skip(1).collect();
    match run(&arguments) {
        Ok(true) => ExitCode::SUCCESS,
        Ok(false) => ExitCode::FAILURE,
        Err(failure) => {
            eprintln!("oracle: {failure}");
            ExitCode::FAILURE
        }
    }
}

/// Runs a command; false if it found a difference.
fn run(arguments: &[String]) -> Result<bool, Failure> {
    let Some((command, options)) = arguments.split_first() else {
        print!("{USAGE}");
        return Ok(true);
    };
    match command.as_str() {
        "compare" => return run_compare(options),
        "exhaustive" => return run_exhaustive(options),
        "read" => run_read(options)?,
        "shrink" => return run_shrink(options),
        "survey" => return run_survey(options),
        "record" => run_record(options)?,
        "record-lines" => run_record_lines(options)?,
        "images" => run_images(options)?,
        "program" => return run_program(options),
        "stress" => return run_stress(options),
        "lengths" => return run_lengths(options),
        "bench" => {
            without_entry(options)?;
            on_long_stack(|| bench(|entry| ours(entry).ok()));
        }
        "stack" => return run_stack(options),
        "answer" => run_answer(options)?,
        "export-example" => {
            without_layout(options)?;
            let image = export(&bond_report(), edition(options)?)?;
            io::stdout().write_all(&image)?;
        }
        "families" => {
            families(entry(options)?).for_each(|(_, family)| println!("{}", family.name));
        }
        _ => return Err(format!("no command {command}\n{USAGE}").into()),
    }
    Ok(true)
}

#[cfg(feature = "ours")]
fn ours(entry: Entry) -> Result<Library, Failure> {
    Ok(oracle::ours::ours(entry))
}

#[cfg(not(feature = "ours"))]
fn ours(_: Entry) -> Result<Library, Failure> {
    Err("built without the feature `ours`".into())
}

fn option<'a>(options: &'a [String], name: &str) -> Option<&'a str> {
    let at = options.iter().position(|option| option == name)?;
    options.get(at + 1).map(String::as_str)
}

/// The value of an option that says one of two things, the first if it is not
/// there.
fn one_of<T>(options: &[String], name: &str, values: [(&str, T); 2]) -> Result<T, Failure> {
    let [(first, default), (second, other)] = values;
    if options.iter().all(|option| option != name) {
        return Ok(default);
    }
    match option(options, name) {
        Some(value) if value == first => Ok(default),
        Some(value) if value == second => Ok(other),
        Some(value) => Err(format!("{name} is {first} or {second}, not {value}").into()),
        None => Err(format!("{name} is {first} or {second}").into()),
    }
}

fn edition(options: &[String]) -> Result<Edition, Failure> {
    let values = [("1", Edition::One), ("2", Edition::Two)];
    one_of(options, "--edition", values)
}

fn layout(options: &[String]) -> Result<Layout, Failure> {
    let values = [("packed", Layout::Packed), ("aligned", Layout::Aligned)];
    one_of(options, "--layout", values)
}

fn entry(options: &[String]) -> Result<Entry, Failure> {
    Ok(Entry {
        edition: edition(options)?,
        layout: layout(options)?,
    })
}

/// For commands that take no other layout.
fn without_layout(options: &[String]) -> Result<(), Failure> {
    match layout(options)? {
        Layout::Packed => Ok(()),
        Layout::Aligned => Err("this command has no --layout aligned".into()),
    }
}

/// For commands that take no other edition and layout.
fn without_entry(options: &[String]) -> Result<(), Failure> {
    without_layout(options)?;
    match edition(options)? {
        Edition::One => Ok(()),
        Edition::Two => Err("this command has no --edition 2".into()),
    }
}

fn number(options: &[String], name: &str) -> Result<u64, Failure> {
    let text = option(options, name).ok_or_else(|| format!("{name} is missing"))?;
    text.parse()
        .map_err(|_| format!("{name} is not a number").into())
}

fn selection(options: &[String]) -> Result<Selection, Failure> {
    let entry = entry(options)?;
    let families = match option(options, "--family") {
        None => Families::All,
        Some(name) => {
            let family = family_named(name, entry);
            Families::One(family.ok_or_else(|| format!("no family {name} here"))?)
        }
    };
    Ok(Selection {
        count: number(options, "--count")?,
        seed: number(options, "--seed")?,
        families,
        entry,
    })
}

fn selection_one(options: &[String]) -> Result<Selection, Failure> {
    without_entry(options)?;
    selection(options)
}

fn image_from_input() -> io::Result<Vec<u8>> {
    let mut image = Vec::new();
    io::stdin().read_to_end(&mut image)?;
    Ok(image)
}

fn run_compare(options: &[String]) -> Result<bool, Failure> {
    let selection = selection(options)?;
    let ours = ours(selection.entry)?;
    let start = Instant::now();
    let outcome = compare(selection, ours).shrunk(ours);
    print!("{}", outcome.tally);
    let enough = enough(selection, || outcome.below_floor(selection.entry));
    Ok(report("compare", &outcome, start) && enough)
}

/// Whether a run over all families met enough of each kind; tells if not.
fn enough(selection: Selection, below_floor: impl Fn() -> Vec<String>) -> bool {
    if selection.families != Families::All {
        return true;
    }
    let few = below_floor();
    few.iter().for_each(|few| println!("TOO FEW {few}"));
    few.is_empty()
}

fn run_exhaustive(options: &[String]) -> Result<bool, Failure> {
    let (bytes, ours) = (number(options, "--bytes")?, ours(entry(options)?)?);
    let start = Instant::now();
    let outcome = exhaustive(bytes as usize, ours).shrunk(ours);
    println!("images {}", by_number(&outcome.tally.totals()));
    Ok(report("exhaustive", &outcome, start))
}

fn run_read(options: &[String]) -> Result<(), Failure> {
    let ours = ours(entry(options)?)?;
    let image = image_from_input()?;
    let call = Call::Read {
        starts: SLOT_LIMIT as usize,
    };
    let reply = ours.reply(&image, call);
    let Verdict { number, value } = reply.verdict;
    if number != 0 {
        println!("refused {number} {value}");
        return Ok(());
    }
    println!("accepted, {value} slots");
    for (slot, start) in reply.table[..value as usize].iter().enumerate() {
        println!("slot {slot} at byte {start}");
    }
    Ok(())
}

/// Holds or measures, or answers one case as a process of its own.
fn run_stack(options: &[String]) -> Result<bool, Failure> {
    without_entry(options)?;
    let ours = |entry| ours(entry).ok();
    if options.iter().any(|option| option == "--measure") {
        stack::measure(&ours)?;
        return Ok(true);
    }
    let Some(name) = option(options, "--subject") else {
        return Ok(stack::hold(&ours)?);
    };
    let subject = Subject::ALL.into_iter().find(|one| one.name() == name);
    let subject = subject.ok_or_else(|| format!("no subject {name}"))?;
    let cases = stack::cases();
    let case = cases.get(number(options, "--case")? as usize);
    let case = case.ok_or("no such case")?;
    stack::run(case, subject, &ours, number(options, "--kib")?);
    Ok(true)
}

fn run_shrink(options: &[String]) -> Result<bool, Failure> {
    let ours = ours(entry(options)?)?;
    let image = image_from_input()?;
    let difference = on_long_stack(|| smallest_difference(&image, ours));
    match &difference {
        None => println!("no difference"),
        Some(difference) => print_difference(difference),
    }
    Ok(difference.is_none())
}

fn run_survey(options: &[String]) -> Result<bool, Failure> {
    let selection = selection(options)?;
    let start = Instant::now();
    let survey = survey(selection);
    print!("{}", survey.tally);
    if let Some(image) = &survey.failed {
        println!("the check failed on {}", hex(image));
    }
    let enough = enough(selection, || survey.tally.below_floor(selection.entry));
    let images = survey.tally.images();
    let seconds = start.elapsed().as_secs_f64();
    println!("survey: {images} images, {seconds:.1} s");
    Ok(survey.failed.is_none() && images == selection.count && enough)
}

fn output_file(options: &[String]) -> Result<BufWriter<File>, Failure> {
    let name = option(options, "--out").ok_or("--out is missing")?;
    Ok(BufWriter::new(File::create(name)?))
}

fn run_record(options: &[String]) -> Result<(), Failure> {
    let mut out = output_file(options)?;
    let selection = Selection {
        families: Families::Reading,
        ..selection_one(options)?
    };
    record(selection, &mut out)?;
    out.flush()?;
    Ok(())
}

fn run_record_lines(options: &[String]) -> Result<(), Failure> {
    let mut out = output_file(options)?;
    record_lines(selection_one(options)?, &mut out)?;
    out.flush()?;
    Ok(())
}

fn run_images(options: &[String]) -> Result<(), Failure> {
    let folder = Path::new(option(options, "--out").ok_or("--out is missing")?);
    write_images(selection(options)?, folder)?;
    Ok(())
}

fn run_program(options: &[String]) -> Result<bool, Failure> {
    let binary = option(options, "--binary").ok_or("--binary is missing")?;
    let selection = selection_one(options)?;
    let start = Instant::now();
    let outcome = program::run(selection, &|| Command::new(binary))?;
    if let Some(wrong) = &outcome.wrong {
        println!("image: {}", hex(&wrong.image));
        println!("{wrong}");
    }
    let seconds = start.elapsed().as_secs_f64();
    let verdict = match outcome.wrong {
        Some(_) => "DIFFERENT".into(),
        None if outcome.complete() => "no difference".into(),
        None => format!("INCOMPLETE, {} asked", outcome.asked),
    };
    println!(
        "program: {} images, {} left out as too long, {} end it by a signal as recorded, \
         {verdict}, {seconds:.1} s",
        outcome.images, outcome.too_long, outcome.ended
    );
    Ok(outcome.passed())
}

fn run_stress(options: &[String]) -> Result<bool, Failure> {
    let binary = option(options, "--binary").ok_or("--binary is missing")?;
    let deep = family_named("deep", Entry::ONE).ok_or("no family deep")?;
    let selection = Selection {
        families: Families::One(deep),
        ..selection_one(options)?
    };
    let start = Instant::now();
    let outcome = stress::run(binary, selection)?;
    outcome.known.iter().for_each(|known| println!("{known}"));
    if outcome.kept_short {
        println!("these were not tried on a long stack: the limit cannot be raised here");
    }
    match &outcome.failure {
        Some(stress::Failure::Wrong(wrong)) => {
            println!("image: {}\n{wrong}", hex(&wrong.image));
        }
        Some(stress::Failure::Answered(name)) => {
            println!("{name}: answered, but recorded as ending the program");
        }
        None => {}
    }
    let verdict = match outcome.failure {
        None => "no other difference",
        Some(_) => "DIFFERENT",
    };
    let seconds = start.elapsed().as_secs_f64();
    println!(
        "stress: {} images, {} end the program by a signal as recorded, {} left out as too long, \
         {verdict}, {seconds:.1} s",
        outcome.images(),
        outcome.known.len(),
        outcome.too_long
    );
    Ok(outcome.failure.is_none())
}

fn run_lengths(options: &[String]) -> Result<bool, Failure> {
    without_entry(options)?;
    let (count, seed) = (number(options, "--count")?, number(options, "--seed")?);
    println!("per clause: held (held though a proviso is not met, past the horizon)");
    let entries = [Entry::ONE, Entry::ALIGNED, Entry::TWO, Entry::ALIGNED_TWO];
    let holds = entries.map(|entry| lengths_of(entry, count, seed));
    Ok(holds == [true; 4])
}

/// Lengths and sizes of one edition and layout; false if they do not agree.
fn lengths_of(entry: Entry, count: u64, seed: u64) -> bool {
    let start = Instant::now();
    let subjects = lengths::subjects(entry, ours(entry).ok());
    let summary = lengths::run(count, seed, entry, &subjects);
    print!("{summary}");
    if let Some(broken) = &summary.broken {
        println!("smallest image found: {}", hex(&broken.image));
        println!("{}: {}", broken.subject, broken.told);
    }
    let low = summary.too_low(count, entry);
    low.iter().for_each(|count| println!("too low: {count}"));
    let verdict = match (&summary.broken, low.is_empty()) {
        (Some(_), _) => "BROKEN",
        (None, false) => "TOO LITTLE TRIED",
        (None, true) => "demand 3 holds",
    };
    let seconds = start.elapsed().as_secs_f64();
    let schemas = summary.small.met.schemas + summary.families.met.schemas;
    let layout = entry.layout;
    let edition = match entry.edition {
        Edition::One => "",
        Edition::Two => ", edition two",
    };
    println!("lengths, {layout:?}{edition}: {schemas} schemas, {verdict}, {seconds:.1} s");
    summary.broken.is_none() && low.is_empty()
}

fn run_answer(options: &[String]) -> Result<(), Failure> {
    let entry = entry(options)?;
    let text = match image_from_input() {
        Err(_) => "vexil-typeck 1\nrefused 0 0\n".into(),
        Ok(image) => match on_long_stack(|| patient_answer(&image, entry)) {
            Ok(answer) => lines(&answer),
            Err(_) => return Err("the check would take too long".into()),
        },
    };
    print!("{text}");
    Ok(())
}

fn patient_answer(image: &[u8], entry: Entry) -> Result<Answer, TooLong> {
    Whole::within(image, entry, PATIENT_STEP_LIMIT).answer(PROGRAM_PLACES)
}

/// Prints a difference, if any, and the summary line.
fn report(command: &str, outcome: &Outcome, start: Instant) -> bool {
    if let Some(difference) = &outcome.difference {
        print_difference(difference);
    }
    println!("calls {}", by_number(&outcome.calls));
    let images = outcome.tally.images();
    let seconds = start.elapsed().as_secs_f64();
    let verdict = match outcome.first {
        Some(number) => format!("DIFFERENT on image {number}"),
        None if outcome.complete() => "no difference".into(),
        None => format!("INCOMPLETE, {} asked", outcome.asked),
    };
    let rate = images as f64 / seconds;
    println!("{command}: {images} images, {verdict}, {seconds:.1} s, {rate:.0} images/s");
    outcome.passed()
}

/// Counts that are not 0, by the number answered.
fn by_number(counts: &[u64; COLUMNS]) -> String {
    let told = |(number, &count): (usize, &u64)| match number {
        _ if count == 0 => None,
        0 => Some(format!("accepted: {count}")),
        TOO_LONG => Some(format!("too long, not made: {count}")),
        number => Some(format!("refused {number}: {count}")),
    };
    let told: Vec<String> = counts.iter().enumerate().filter_map(told).collect();
    told.join(", ")
}

fn print_difference(difference: &Difference) {
    println!("smallest image that differs: {}", hex(&difference.image));
    println!("call: {}", difference.call);
    println!("Rust: {}", difference.expected);
    println!("ours: {}", difference.ours);
}

fn hex(image: &[u8]) -> String {
    let bytes: Vec<String> = image.iter().map(|byte| format!("{byte:02x}")).collect();
    bytes.join(" ")
}
