//! The generator reaches every refusal, every family gives images, and the
//! sizes worked out here equal the upstream ones on all of them.

use oracle::compare::Selection;
use oracle::format::Entry;
use oracle::generate::{batch, families, Families};
use oracle::survey::survey;
use oracle::tally::numbers;

#[test]
fn every_answer_is_met() {
    for entry in Entry::ALL {
        let selection = Selection {
            count: 60_000,
            seed: 11,
            families: Families::All,
            entry,
        };
        let survey = survey(selection);
        assert_eq!(survey.failed, None);
        assert_eq!(survey.tally.images(), selection.count);
        let totals = survey.tally.totals();
        for &number in numbers(entry.layout) {
            assert!(totals[number] > 0, "no image is answered {number}");
        }
        assert_eq!(survey.tally.below_floor(entry), [""; 0]);
    }
}

#[test]
fn every_family_gives_images() {
    for entry in Entry::ALL {
        for (number, family) in families(entry) {
            let mut images = 0;
            batch(5, 0, Families::One(number), entry, |_, _| images += 1);
            assert!(images > 0, "{}", family.name);
        }
    }
}

#[test]
fn a_batch_is_told_by_seed_and_number() {
    let images = |number| {
        let mut images = Vec::new();
        batch(9, number, Families::All, Entry::ONE, |_, image| {
            images.push(image.to_vec())
        });
        images
    };
    for number in 0..50 {
        assert_eq!(images(number), images(number));
    }
    assert_ne!(images(1), images(2));
}
