//! The whole answer of document 01 for an image and the places lent for it.
//!
//! Refusals 1 to 9 come from the importer, 11 and 14 from sizes worked out here
//! in 128 bits, sizes and findings from the upstream check. It knows the packed
//! layout alone, and no limits: the sizes of the head board and those with limits
//! are worked out here, once they are the upstream ones where nothing is rounded
//! and limits are left out. Nor does it know retired ones: for it they are moved
//! behind the live ones.

mod added;
mod aligned;
mod bearing;
mod brought;
mod counts;
pub(crate) mod elements;
mod fields;
mod findings;
mod kinds;
mod limit;
mod limited;
pub(crate) mod moved;
pub(crate) mod parts;
mod retired;
mod rounding;
pub(crate) mod sizes;
mod steps;
mod whole;
pub(crate) mod widths;

use std::fmt::Write;

use crate::format::Entry;
use crate::import::Refusal;
pub use added::AddedCounts;
pub use aligned::AlignedCounts;
pub use bearing::Bearing;
pub use brought::{bringing, brought};
pub use fields::{each_wanted, Wanted};
pub use kinds::FieldCounts;
pub use limit::{Operation, Part, PassedLimit, Step};
pub use limited::LimitedCounts;
pub use parts::{expression_kind, type_kind, type_parts};
pub use retired::RetiredCounts;
pub use sizes::Notes;
pub use steps::{TooLong, PATIENT_STEP_LIMIT};
pub use whole::{Classes, Unions, Whole};

/// Lent places: u64 for sizes, u32 for findings.
#[derive(Debug, Clone, Copy, PartialEq, Eq)]
pub struct Places {
    pub sizes: u64,
    pub findings: u64,
}

/// The places of the program `vexcheck`.
pub const PROGRAM_PLACES: Places = Places {
    sizes: 3 * 512,
    findings: 6 * 1_000,
};

#[derive(Debug, Clone, PartialEq, Eq)]
pub enum Answer {
    /// The finding count, three sizes a slot, six numbers a finding.
    Accepted {
        count: u64,
        sizes: Vec<u64>,
        findings: Vec<u32>,
    },
    Refused {
        number: u64,
        place: u64,
    },
}

impl From<Refusal> for Answer {
    fn from(refusal: Refusal) -> Self {
        refused(refusal.number, refusal.place)
    }
}

fn refused(number: u64, place: u64) -> Answer {
    Answer::Refused { number, place }
}

/// Answers an image, unless the check would take more than `STEP_LIMIT` steps.
/// Slots that lead on and on take a long stack: see `workers::on_long_stack`.
pub fn answer(image: &[u8], entry: impl Into<Entry>, places: Places) -> Result<Answer, TooLong> {
    Whole::of(image, entry).answer(places)
}

/// The output of `vexcheck` for an answer.
pub fn lines(answer: &Answer) -> String {
    let mut text = String::from("vexil-typeck 1\n");
    match answer {
        Answer::Refused { number, place } => line(&mut text, "refused", &[*number, *place]),
        Answer::Accepted {
            count,
            sizes,
            findings,
        } => {
            for (slot, row) in sizes.chunks(3).enumerate() {
                if row != [0, 0, 0] {
                    line(&mut text, "size", &[slot as u64, row[0], row[1], row[2]]);
                }
            }
            for found in findings.chunks(6) {
                let numbers: Vec<u64> = found.iter().map(|&n| n.into()).collect();
                line(&mut text, "found", &numbers);
            }
            line(&mut text, "end", &[*count]);
        }
    }
    text
}

fn line(text: &mut String, word: &str, numbers: &[u64]) {
    text.push_str(word);
    for number in numbers {
        write!(text, " {number}").expect("a String takes all text");
    }
    text.push('\n');
}
