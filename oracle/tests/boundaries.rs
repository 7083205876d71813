//! The Rust side at every boundary of the format and of sizes.

use oracle::answer::{Answer, Whole, PROGRAM_PLACES};
use oracle::format::{Edition, Entry, Layout};
use oracle::generate::bounds::boundaries;
use oracle::generate::edges::all_edges;
use oracle::generate::rounding::all_rounded;
use oracle::import::import;
use oracle::model::Schema;

#[test]
fn importer_answers_each_boundary() {
    assert!(boundaries(Edition::One).len() > 250);
    assert!(boundaries(Edition::Two).len() > boundaries(Edition::One).len() + 80);
    for edition in Edition::ALL {
        for boundary in boundaries(edition) {
            let refused = import(&boundary.image, edition).err();
            let refused = refused.map(|refusal| (refusal.number, refusal.place));
            assert_eq!(refused, boundary.refused, "{}", boundary.what);
        }
    }
}

/// The refusal for a size, if there is one.
fn refused(schema: &Schema, entry: Entry) -> Option<(u64, u64)> {
    let whole = Whole::sizes_of(&schema.bytes(entry.edition), entry);
    let answer = whole.sizes_answer(PROGRAM_PLACES.sizes);
    match answer.expect("a short check") {
        Answer::Refused { number, place } => Some((number, place)),
        Answer::Accepted { .. } => None,
    }
}

#[test]
fn sizes_are_refused_one_bit_above_the_limit() {
    assert!(all_edges().len() > 2_500);
    for edge in all_edges() {
        for entry in [Entry::ONE, Entry::TWO] {
            assert_eq!(refused(&edge.schema, entry), edge.refused, "{}", edge.what);
        }
    }
}

#[test]
fn rounding_passes_the_limit_from_2_63_less_7_on() {
    assert!(all_rounded().len() > 150);
    for one in all_rounded() {
        for entry in Entry::ALL {
            let due = match entry.layout {
                Layout::Packed => one.packed,
                Layout::Aligned => one.aligned,
            };
            let what = &one.what;
            assert_eq!(refused(&one.schema, entry), due, "{entry:?}: {what}");
        }
    }
}
