//! Wrong limits that runs over images of edition two have to tell, in both layouts:
//! the reference's answer but for sizes, which are those of a wrong rule.

// Of the wrong sizes only those of limits are compared here.
#[allow(dead_code)]
mod wrong_sizes;

use oracle::compare::{compare, exhaustive, Outcome, Selection};
use oracle::export::tree_of;
use oracle::format::{Edition, Entry};
use oracle::generate::{family_named, Families};
use oracle::import::import;
use oracle::library::{Checker, Library, Verdict, REFERENCE_ALIGNED_TWO, REFERENCE_TWO};
use wrong_sizes::{worked, Wrong};

const SELECTION: Selection = Selection {
    count: 8_000,
    seed: 10,
    families: Families::All,
    entry: Entry::TWO,
};

const RIGHT: [Library; 2] = [REFERENCE_TWO, REFERENCE_ALIGNED_TWO];

/// The wrong rules; the first is right.
fn wrong(case: usize) -> Wrong {
    let wrong = Wrong::OF_LIMITS.iter().chain(Wrong::OF_REFUSALS);
    let mut all = [Wrong::Nothing].into_iter().chain(wrong.copied());
    all.nth(case).expect("a case")
}

/// The reference, but that sizes are those of a wrong rule.
fn check<const CASE: usize, const LAYOUT: usize>(
    image: &[u8],
    sizes: &mut [u64],
    findings: &mut [u32],
) -> Verdict {
    let right = RIGHT[LAYOUT];
    let check = right.check.expect("the reference has all");
    let verdict = check(image, sizes, findings);
    // Others come before sizes.
    if !matches!(verdict.number, 0 | 11 | 12 | 14) {
        return verdict;
    }
    let schema = import(image, Edition::Two).expect("accepted").schema;
    let tree = tree_of(&schema, Edition::Two).expect("what was read fits");
    let worked = worked(&tree, right.entry.layout, wrong(CASE));
    match worked.refused {
        _ if worked.too_long => verdict,
        Some((number, value)) => {
            sizes.fill(0);
            findings.fill(0);
            Verdict { number, value }
        }
        None if verdict.number == 12 => verdict,
        None => {
            sizes[..worked.table.len()].copy_from_slice(&worked.table);
            // Findings of what ought to be refused are not known.
            let value = match verdict.number {
                0 => verdict.value,
                _ => 0,
            };
            Verdict { number: 0, value }
        }
    }
}

/// Of each case those of both layouts.
macro_rules! checkers {
    ($($case:literal)*) => {
        [$([check::<$case, 0> as Checker, check::<$case, 1>]),*]
    };
}

const CHECKERS: [[Checker; 2]; 34] = checkers! {
    0 1 2 3 4 5 6 7 8 9 10 11 12 13 14 15 16 17 18 19 20 21 22 23 24 25 26 27 28 29 30 31 32 33
};

/// The libraries of both layouts, and what is wrong with them.
fn libraries() -> impl Iterator<Item = (Wrong, Library)> {
    assert_eq!(
        CHECKERS.len(),
        1 + Wrong::OF_LIMITS.len() + Wrong::OF_REFUSALS.len()
    );
    let cases = CHECKERS.into_iter().enumerate();
    cases.flat_map(|(case, checkers)| {
        let libraries = RIGHT.into_iter().zip(checkers);
        libraries.map(move |(right, check)| {
            let library = Library {
                check: Some(check),
                ..right
            };
            (wrong(case), library)
        })
    })
}

/// Elements are rounded on the head board alone.
fn wrong_libraries() -> impl Iterator<Item = (Wrong, Library)> {
    libraries().filter(|&(wrong, library)| match wrong {
        Wrong::Nothing => false,
        Wrong::ElementsRounded => library.entry == Entry::ALIGNED_TWO,
        _ => true,
    })
}

fn run(library: Library, families: Families) -> Outcome {
    let selection = Selection {
        families,
        entry: library.entry,
        ..SELECTION
    };
    compare(selection, library)
}

/// The rules as they are, written once more, with all refusals.
#[test]
fn right_sizes_are_answered_alike() {
    for (_, library) in libraries().take(RIGHT.len()) {
        assert_eq!(run(library, Families::All).difference, None);
    }
}

#[test]
fn wrong_limits_are_told() {
    for (wrong, library) in wrong_libraries() {
        let entry = library.entry;
        let family = family_named("limited-arrays", entry).expect("a family");
        for families in [Families::All, Families::One(family)] {
            let difference = run(library, families).difference;
            let difference = difference.unwrap_or_else(|| panic!("{wrong:?}, {entry:?}"));
            let number = difference.expected.verdict.number;
            assert!(matches!(number, 0 | 11 | 14), "{wrong:?}: {number}");
        }
    }
}

/// Other families tell the plainest of them too.
#[test]
fn limits_ignored_are_told_elsewhere() {
    let plainest = [Wrong::LimitIgnored, Wrong::OneGroup, Wrong::LimitOfInner];
    for (wrong, library) in wrong_libraries().filter(|(wrong, _)| plainest.contains(wrong)) {
        for family in ["valid", "loose"] {
            let number = family_named(family, library.entry).expect("a family");
            let outcome = run(library, Families::One(number));
            assert!(outcome.difference.is_some(), "{wrong:?}, {family}");
        }
    }
}

/// The gaps with a limited field tell what hangs on one element or limit.
#[test]
fn short_images_tell_wrong_limits() {
    let told = [
        Wrong::LimitIgnored,
        Wrong::ZeroIsLimit,
        Wrong::NoGroup,
        Wrong::OneElementLess,
    ];
    let packed = wrong_libraries().filter(|(_, library)| library.entry == Entry::TWO);
    for (wrong, library) in packed.filter(|(wrong, _)| told.contains(wrong)) {
        let outcome = exhaustive(2, library);
        assert!(outcome.difference.is_some(), "{wrong:?}");
    }
}

#[test]
fn the_smallest_image_is_small() {
    let (_, library) = wrong_libraries().next().expect("limits ignored");
    let outcome = run(library, Families::All).shrunk(library);
    let difference = outcome.difference.expect("a difference");
    // One slot, declared, with one field of an array.
    let image = &difference.image;
    assert!(image.len() <= 16, "{image:02x?}");
    assert_eq!(difference.expected.verdict.number, 0);
}

/// Without the family, each layout has too few sizes that pass the limit by limits.
#[test]
fn floors_need_the_family() {
    for library in RIGHT {
        let family = family_named("limited-arrays", library.entry).expect("a family");
        let few = run(library, Families::Without(family)).below_floor(library.entry);
        for step in [
            "11, the addition",
            "11, key and value",
            "14, the product",
            "inside a value whose key has no largest",
            "after a product of 2^63 - 1",
        ] {
            let told = format!("accepted without limits, but refused {step}");
            assert!(few.iter().any(|few| few.starts_with(&told)), "{few:?}");
        }
        let outcome = run(library, Families::All);
        assert_eq!(outcome.below_floor(library.entry), [""; 0]);
    }
}
