//! Deep chains and the images that are timed are what they are said to be.

use oracle::answer::{Answer, Whole, PATIENT_STEP_LIMIT, PROGRAM_PLACES};
use oracle::bench::cases::{cases, pairs, Case, Pair};
use oracle::format::{Edition, Entry, IMAGE_LIMIT};
use oracle::generate::deep::{in_no_order, through_again, through_entries, Chain, Link, Wrapper};
use oracle::workers::on_long_stack;

fn deepest(link: Link, wrapper: Wrapper) -> u64 {
    let chain = Chain {
        slots: 512,
        link,
        wrapper,
        levels: 31,
    };
    let image = chain.below_one().bytes(Edition::One);
    let whole = on_long_stack(|| Whole::of(&image, Edition::One));
    let answer = whole.answer(PROGRAM_PLACES).expect("a short check");
    assert!(matches!(answer, Answer::Accepted { .. }), "{answer:?}");
    whole.deepest
}

#[test]
fn chains_go_through_all_slots_and_levels() {
    for wrapper in [
        Wrapper::Optional,
        Wrapper::Fixed,
        Wrapper::Result,
        Wrapper::Deltas,
    ] {
        // A call for each slot and for each of the 32 levels of its type.
        assert_eq!(deepest(Link::Message, wrapper), 511 * 33 + 2);
        assert_eq!(deepest(Link::Union, wrapper), 511 * 33 + 2);
    }
    assert!(deepest(Link::Newtype, Wrapper::Optional) >= 511 * 32);
    assert!(deepest(Link::Behind, Wrapper::Optional) >= 511 * 32);
}

#[test]
fn newtypes_are_gone_through_again() {
    for messages in 1..=4 {
        let image = through_again(messages).bytes(Edition::One);
        let whole = on_long_stack(|| Whole::of(&image, Edition::One));
        assert_eq!(whole.finding_places(), Some(0));
        assert!(whole.deepest > messages * (512 - messages) * 32 - 32);
    }
}

/// In edition two the entries of a map are worked out if they have a limit.
#[test]
fn entries_are_gone_through() {
    let schema = through_entries(512, 30);
    let deepest = |entry: Entry| {
        let image = schema.bytes(entry.edition);
        let whole = on_long_stack(|| Whole::of(&image, entry));
        assert_eq!(whole.finding_places(), Some(0));
        whole.deepest
    };
    for entry in [Entry::TWO, Entry::ALIGNED_TWO] {
        assert_eq!(deepest(entry), 511 * 33 + 2);
    }
    assert_eq!(deepest(Entry::ONE), 2);
}

#[test]
fn messages_in_no_order_are_all_gone_through() {
    let whole = on_long_stack(|| Whole::of(&in_no_order().bytes(Edition::One), Edition::One));
    assert_eq!(whole.finding_places(), Some(0));
    assert!(whole.deepest >= 2 * 511, "{}", whole.deepest);
}

#[test]
fn typical_schema_is_sound() {
    let cases = cases();
    let typical = cases.iter().find(|case| case.name == "typical, 40 slots");
    let whole = Whole::of(&typical.expect("a case").image, Edition::One);
    assert_eq!(whole.starts.len(), 40);
    assert_eq!(whole.finding_places(), Some(0));
}

#[test]
fn full_cases_are_full() {
    let is_full = |name: &str, bytes: usize, shortest: usize| {
        let full = bytes <= IMAGE_LIMIT && bytes + shortest > IMAGE_LIMIT;
        assert!(full || !name.starts_with("full"), "{name}: {bytes}");
    };
    for case in cases() {
        is_full(case.name, case.image.len(), 4);
    }
    for pair in pairs() {
        is_full(pair.name, pair.images[1].len(), 5);
    }
}

/// The head board is timed on all of them: none brings a size.
#[test]
fn cases_are_for_both_layouts() {
    for Case { name, image } in cases() {
        let answers = [Entry::ONE, Entry::ALIGNED].map(|entry| {
            let whole = Whole::within(&image, entry, PATIENT_STEP_LIMIT);
            let answer = whole.answer(PROGRAM_PLACES).expect("a short check");
            matches!(answer, Answer::Accepted { .. })
        });
        assert_eq!(answers[0], answers[1], "{name}");
    }
}

/// Edition two is timed on the schemas that edition one is timed on.
#[test]
fn pairs_are_answered_alike() {
    let names = |(case, pair): (Case, Pair)| assert_eq!(case.name, pair.name);
    cases().into_iter().zip(pairs()).for_each(names);
    assert_eq!(cases().len(), pairs().len());
    for Pair { name, images } in pairs() {
        let [one, two] = &images;
        let answers = [(one, Edition::One), (two, Edition::Two)].map(|(image, edition)| {
            Whole::within(image, edition, PATIENT_STEP_LIMIT).answer(PROGRAM_PLACES)
        });
        assert!(answers[0].is_ok(), "{name}");
        assert_eq!(answers[0], answers[1], "{name}");
    }
}
