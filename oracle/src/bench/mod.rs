//! Times of reading, of sizes and of the whole check, the Rust beside ours, of
//! edition two beside edition one, and of the head board beside the packed
//! layout, in one run.

pub mod cases;

use std::hint::black_box;
use std::time::{Duration, Instant};

use crate::format::{Edition, Entry, SLOT_LIMIT};
use crate::import::{import, Imported};
use crate::ir::CompiledSchema;
use crate::library::{Checker, Library};
use crate::typeck::{check, compute_wire_sizes};
use cases::{cases, pairs, Case, Pair};

/// Rounds of each measurement, in turns with the others.
const ROUNDS: usize = 7;
const ROUND_TIME: Duration = Duration::from_millis(40);

/// Calls are timed in runs about this long and the fastest run counts: short
/// enough to escape other work on the machine, long enough for the clock.
const RUN_TIME: Duration = Duration::from_micros(200);

/// Image bytes that the schemas of one prepared batch stand for, at most, so
/// that they stay near the processor.
const BATCH_BYTES: usize = 1 << 15;

/// Edition two may take so many times what edition one takes, and so may the
/// head board of the packed layout.
const BAR: f64 = 1.15;

/// Makes so many calls and tells how long they took.
type Work<'a> = Box<dyn FnMut(usize) -> Duration + 'a>;

/// What is timed against what. `Import` reads an image into the compiler's
/// schema; `alone` starts from such a schema.
struct Task {
    name: &'static str,
    rust: fn(&mut CompiledSchema),
    ours: for<'a> fn(&'a [u8], Library) -> Option<Work<'a>>,
}

const TASKS: [Task; 3] = [
    Task {
        name: "image to slot starts",
        rust: |_| (),
        ours: |image, ours| {
            let mut starts = vec![0; SLOT_LIMIT as usize];
            Some(repeated(move || {
                black_box((ours.read)(black_box(image), &mut starts));
            }))
        },
    },
    Task {
        name: "image to size table",
        rust: compute_wire_sizes,
        ours: |image, ours| {
            let size = ours.sizes?;
            let mut sizes = vec![0; size_places(image, ours)];
            Some(repeated(move || {
                black_box(size(black_box(image), &mut sizes));
            }))
        },
    },
    Task {
        name: "whole check",
        rust: |schema| {
            black_box(check(schema));
        },
        ours: checked,
    },
];

/// The whole check of a library.
fn checked(image: &[u8], library: Library) -> Option<Work<'_>> {
    let check = library.check?;
    let mut sizes = vec![0; size_places(image, library)];
    let mut findings = vec![0; finding_places(image, &mut sizes, check)];
    Some(repeated(move || {
        black_box(check(black_box(image), &mut sizes, &mut findings));
    }))
}

/// Three places a slot, none for a refused image.
fn size_places(image: &[u8], ours: Library) -> usize {
    let answer = (ours.read)(image, &mut vec![0; SLOT_LIMIT as usize]);
    if answer.number == 0 {
        3 * answer.value as usize
    } else {
        0
    }
}

/// Six places a finding.
fn finding_places(image: &[u8], sizes: &mut [u64], check: Checker) -> usize {
    let answer = check(image, sizes, &mut vec![0; 6 << 16]);
    if answer.number == 0 {
        6 * answer.value as usize
    } else {
        0
    }
}

/// Prints a table a task, with a line a case, one of both editions and one of
/// both layouts. Without a library only the Rust is measured.
pub fn bench(ours: impl Fn(Entry) -> Option<Library>) {
    let cases = cases();
    for task in &TASKS {
        println!(
            "\n{:26}{:>7}{:>13}{:>13}{:>13}{:>9}{:>9}",
            task.name, "bytes", "import, ns", "alone, ns", "ours, ns", "/import", "/alone"
        );
        cases
            .iter()
            .for_each(|case| line(task, case, ours(Entry::ONE)));
    }
    let both = |entry| Some([ours(Entry::ONE)?, ours(entry)?]);
    if let Some(libraries) = both(Entry::TWO) {
        ratios("editions", ["one", "two"], &pairs(), libraries);
    }
    if let Some(libraries) = both(Entry::ALIGNED) {
        let twice = |Case { name, image }: Case| Pair {
            name,
            images: [image.clone(), image],
        };
        let pairs: Vec<Pair> = cases.into_iter().map(twice).collect();
        ratios("layouts", ["packed", "aligned"], &pairs, libraries);
    }
}

/// The whole check by two libraries, and how many times the first the second
/// takes.
fn ratios(what: &str, names: [&str; 2], pairs: &[Pair], libraries: [Library; 2]) {
    let [one, two] = names;
    println!(
        "\n{:26}{:>8}{:>8}{:>13}{:>13}{:>16}",
        format!("whole check, {what}"),
        "bytes",
        "bytes",
        format!("{one}, ns"),
        format!("{two}, ns"),
        format!("{two}/{one}")
    );
    let ratios = pairs.iter().map(|pair| ratio_line(pair, libraries));
    let ratios: Vec<f64> = ratios.collect();
    let above = ratios.iter().filter(|&&ratio| ratio > BAR).count();
    let largest = ratios.iter().copied().fold(0.0, f64::max);
    println!("{two} takes {largest:.2} times {one} at most; {above} rows above {BAR}");
}

/// Prints a line and answers the ratio.
fn ratio_line(pair: &Pair, libraries: [Library; 2]) -> f64 {
    let [one, two] = &pair.images;
    let works = [one, two].into_iter().zip(libraries);
    let works = works.map(|(image, library)| checked(image, library));
    let mut works: Vec<Work<'_>> = works
        .map(|work| work.expect("both have the check"))
        .collect();
    let times = fastest(&mut works);
    let ratio = times[1] / times[0];
    println!(
        "{:26}{:>8}{:>8}{:>13.0}{:>13.0}{ratio:>16.2}",
        pair.name,
        one.len(),
        two.len(),
        times[0],
        times[1]
    );
    ratio
}

fn line(task: &Task, case: &Case, ours: Option<Library>) {
    let image = &case.image;
    let mut works = vec![imported(image, task.rust)];
    // A refused image leaves nothing to do, and reading is all import.
    let alone = match import(image, Edition::One) {
        Ok(imported) if task.name != TASKS[0].name => Some(prepared(image, imported, task.rust)),
        _ => None,
    };
    let ours = ours.and_then(|ours| (task.ours)(image, ours));
    let positions = (alone.is_some(), ours.is_some());
    works.extend(alone);
    works.extend(ours);
    let times = fastest(&mut works);
    let alone = positions.0.then(|| times[1]);
    let ours = positions.1.then(|| times[times.len() - 1]);
    print!("{:26}{:>7}{:>13.0}", case.name, image.len(), times[0]);
    print!("{}{}", shown(alone, 13, 0), shown(ours, 13, 0));
    let ratio = |rust: Option<f64>| ours.zip(rust).map(|(ours, rust)| ours / rust);
    println!(
        "{}{}",
        shown(ratio(Some(times[0])), 9, 2),
        shown(ratio(alone), 9, 2)
    );
}

fn shown(time: Option<f64>, width: usize, digits: usize) -> String {
    match time {
        None => format!("{:>width$}", "-"),
        Some(time) => format!("{time:>width$.digits$}"),
    }
}

fn repeated<'a>(mut call: impl FnMut() + 'a) -> Work<'a> {
    Box::new(move |calls| {
        let start = Instant::now();
        for _ in 0..calls {
            call();
        }
        start.elapsed()
    })
}

/// Import, then the Rust function on what is imported.
fn imported(image: &[u8], function: fn(&mut CompiledSchema)) -> Work<'_> {
    repeated(move || {
        if let Ok(mut imported) = import(black_box(image), Edition::One) {
            function(&mut imported.schema);
            black_box(imported);
        }
    })
}

/// The Rust function alone. It stores sizes and then finds them stored, so
/// each call gets a schema of its own, copied outside of the time taken.
fn prepared(image: &[u8], imported: Imported, function: fn(&mut CompiledSchema)) -> Work<'_> {
    let most = (BATCH_BYTES / image.len()).max(1);
    Box::new(move |calls| {
        let mut taken = Duration::ZERO;
        let mut left = calls;
        while left > 0 {
            let batch = left.min(most);
            let mut schemas = vec![imported.schema.clone(); batch];
            let start = Instant::now();
            for schema in &mut schemas {
                function(black_box(schema));
            }
            taken += start.elapsed();
            left -= batch;
        }
        taken
    })
}

/// Nanoseconds of one call of each, measured in turns.
fn fastest(works: &mut [Work<'_>]) -> Vec<f64> {
    let mut best = vec![f64::MAX; works.len()];
    for _ in 0..ROUNDS {
        for (best, work) in best.iter_mut().zip(works.iter_mut()) {
            *best = best.min(round(work));
        }
    }
    best
}

/// Nanoseconds of one call, by the fastest run of a round; by the longest if
/// preparing leaves no time for a full one.
fn round(work: &mut Work<'_>) -> f64 {
    let start = Instant::now();
    let mut best = None;
    let mut rough = f64::MAX;
    let mut calls = 1;
    while start.elapsed() < ROUND_TIME {
        let taken = work(calls);
        let each = taken.as_nanos() as f64 / calls as f64;
        if taken < RUN_TIME && calls < 1 << 16 {
            calls *= 2;
            rough = each;
        } else {
            best = Some(best.map_or(each, |best: f64| best.min(each)));
        }
    }
    best.unwrap_or(rough)
}
