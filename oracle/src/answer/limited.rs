//! What limits change, counted by images: the fields that they bear on and those
//! that they do not, what elements came to, rows that hang on limits, and sizes
//! that pass 2^63 - 1 by them alone. A wrong rule is seen only if it bears on an
//! answer, so each count has a floor.

use std::fmt;

use super::bearing::{
    Bearing, BORDERS, ELEMENTS, ENCODINGS, ENTRIES, IGNORED, KINDS, LIMITS, SMALLEST,
};
use super::counts::{add_row, add_rows, add_there, named};
use super::limit::{Operation, Step};
use super::moved::{has_limited, take_out_limits};
use super::retired::{other_rows, ROWS};
use super::rounding::OWNERS;
use super::sizes::{table_of, Stop};
use super::{Answer, Whole};
use crate::format::{Entry, Layout};
use crate::import::read;
use crate::ir::CompiledSchema;

/// First steps past the limit of sizes, in images that are accepted without limits.
const STEPS: [&str; 7] = [
    "11, the addition",
    "11, key and value",
    "14, the product",
    "11, inside an element",
    "14, inside an element",
    "inside a value whose key has no largest",
    "outside the field",
];

/// Images that are refused without limits too.
const OTHERWISE: [&str; 3] = ["14, not 11", "11, not 14", "at another slot"];

/// Images of a run for each of which a count has to be one more.
const IMAGES_EACH: u64 = 1_000;

#[derive(Debug, Clone, Default, PartialEq, Eq)]
pub struct LimitedCounts {
    /// Accepted images by a field that was worked out.
    met: MetCounts,
    /// Accepted images by a row that they have.
    rows: [u64; ROWS.len()],
    /// Accepted images that have a field as large as may be.
    greatest: u64,
    /// Images that are accepted without limits, by a step that they are refused at,
    /// or just not.
    borders: [u64; BORDERS.len()],
    steps: [u64; STEPS.len()],
    otherwise: [u64; OTHERWISE.len()],
}

impl LimitedCounts {
    /// Counts an image of edition two by its answer, and by that without limits.
    pub fn count(&mut self, image: &[u8], entry: Entry, whole: &Whole) {
        let (Ok(answer), Ok(imported)) = (whole.sizes_answer(u64::MAX), read(image, entry.edition))
        else {
            return;
        };
        let schema = imported.schema;
        let noted = &whole.notes.limits;
        let plain = match has_limited(&schema) {
            true => Some(without_limits(&schema, entry.layout)),
            false => None,
        };
        match (answer, plain) {
            (Answer::Accepted { sizes, .. }, plain) => {
                self.met.count(noted);
                self.greatest += u64::from(noted.borders[greatest(entry.layout)]);
                if let Some(Ok(plain)) = plain {
                    add_there(&mut self.rows, &other_rows(&schema, &sizes, &plain));
                }
            }
            (Answer::Refused { number, place }, Some(plain)) => {
                self.count_refused(whole, number, place, plain);
            }
            _ => {}
        }
    }

    fn count_refused(
        &mut self,
        whole: &Whole,
        number: u64,
        place: u64,
        plain: Result<Vec<u64>, Stop>,
    ) {
        let Some(passed) = whole.passed_limit() else {
            return;
        };
        match plain {
            Ok(_) => {
                add_there(&mut self.borders, &whole.notes.limits.borders);
                self.steps[step(passed.step, passed.operation)] += 1;
            }
            Err(Stop::Limit { slot, passed }) => {
                let plain = passed.operation.number();
                let there = [
                    (number, plain) == (14, 11),
                    (number, plain) == (11, 14),
                    slot != place,
                ];
                add_there(&mut self.otherwise, &there);
            }
            Err(Stop::TooLong) => {}
        }
    }

    pub fn add(&mut self, other: &LimitedCounts) {
        self.met.add(&other.met);
        add_row(&mut self.rows, &other.rows);
        self.greatest += other.greatest;
        add_row(&mut self.borders, &other.borders);
        add_row(&mut self.steps, &other.steps);
        add_row(&mut self.otherwise, &other.otherwise);
    }

    /// All counts, what each is of, and the least that each has to be in a run of
    /// so many images.
    pub fn held(&self, images: u64) -> Vec<(String, u64, u64)> {
        let floor = images / IMAGES_EACH;
        let all = self.each().into_iter();
        all.map(|(what, count)| (what, count, floor)).collect()
    }

    /// All counts, and what each is of.
    fn each(&self) -> Vec<(String, u64)> {
        let mut all = self.met.each();
        named(&mut all, "limits in the row of a", &ROWS, &self.rows);
        all.push(("limited fields as large as may be".into(), self.greatest));
        // The first two are accepted, in one layout or the other.
        let what = "accepted without limits, but refused after";
        named(&mut all, what, &BORDERS[2..], &self.borders[2..]);
        let what = "accepted without limits, but refused";
        named(&mut all, what, &STEPS, &self.steps);
        let what = "refused by limits";
        named(&mut all, what, &OTHERWISE, &self.otherwise);
        all
    }
}

/// Fields that were worked out; of a run, images that have such a field.
#[derive(Debug, Clone, Default, PartialEq, Eq)]
struct MetCounts {
    owners: [[u64; OWNERS.len()]; KINDS.len()],
    encodings: [u64; ENCODINGS.len()],
    ignored: [u64; IGNORED.len()],
    elements: [[u64; ELEMENTS.len()]; KINDS.len()],
    entries: [u64; ENTRIES.len()],
    smallest: [u64; SMALLEST.len()],
    limits: [u64; LIMITS.len()],
    equal_ends: u64,
}

impl MetCounts {
    fn count(&mut self, met: &Bearing) {
        for (row, there) in self.owners.iter_mut().zip(&met.owners) {
            add_there(row, there);
        }
        add_there(&mut self.encodings, &met.encodings);
        add_there(&mut self.ignored, &met.ignored);
        for (row, there) in self.elements.iter_mut().zip(&met.elements) {
            add_there(row, there);
        }
        add_there(&mut self.entries, &met.entries);
        add_there(&mut self.smallest, &met.smallest);
        add_there(&mut self.limits, &met.limits);
        self.equal_ends += u64::from(met.equal_ends);
    }

    fn add(&mut self, other: &MetCounts) {
        add_rows(&mut self.owners, &other.owners);
        add_row(&mut self.encodings, &other.encodings);
        add_row(&mut self.ignored, &other.ignored);
        add_rows(&mut self.elements, &other.elements);
        add_row(&mut self.entries, &other.entries);
        add_row(&mut self.smallest, &other.smallest);
        add_row(&mut self.limits, &other.limits);
        self.equal_ends += other.equal_ends;
    }

    fn each(&self) -> Vec<(String, u64)> {
        let mut all = Vec::new();
        for (kind, row) in KINDS.iter().zip(&self.owners) {
            named(&mut all, &format!("limited {kind} in a"), &OWNERS, row);
        }
        named(&mut all, "limited under", &ENCODINGS, &self.encodings);
        named(&mut all, "limits ignored on", &IGNORED, &self.ignored);
        for (kind, row) in KINDS.iter().zip(&self.elements) {
            let what = format!("limited {kind}, an element of");
            named(&mut all, &what, &ELEMENTS, row);
        }
        let what = "limited Map, with a largest";
        named(&mut all, what, &ENTRIES, &self.entries);
        let what = "limited, past 2^63 - 1 by the smallest";
        named(&mut all, what, &SMALLEST, &self.smallest);
        for (limit, count) in LIMITS.iter().zip(self.limits) {
            all.push((format!("limits that multiply, {limit}"), count));
        }
        all.push(("limited fields of 8..8".into(), self.equal_ends));
        all
    }
}

/// The border that a field may be at.
fn greatest(layout: Layout) -> usize {
    match layout {
        Layout::Packed => 0,
        Layout::Aligned => 1,
    }
}

fn without_limits(schema: &CompiledSchema, layout: Layout) -> Result<Vec<u64>, Stop> {
    let mut plain = schema.clone();
    take_out_limits(&mut plain);
    table_of(&plain, layout)
}

/// In the order of `STEPS`.
fn step(step: Option<Step>, operation: Operation) -> usize {
    match (step, operation) {
        (Some(Step::Sum), _) => 0,
        (Some(Step::Entry), _) => 1,
        (Some(Step::Product), _) => 2,
        (Some(Step::Inside), Operation::Sum) => 3,
        (Some(Step::Inside), Operation::Product) => 4,
        (Some(Step::Value), _) => 5,
        (None, _) => 6,
    }
}

impl fmt::Display for LimitedCounts {
    fn fmt(&self, out: &mut fmt::Formatter<'_>) -> fmt::Result {
        for (what, count) in self.each() {
            writeln!(out, "{what}: {count}")?;
        }
        Ok(())
    }
}
