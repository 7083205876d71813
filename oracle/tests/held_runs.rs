//! Wrong widths that runs over images of edition two have to tell, in both layouts:
//! each the reference's answer on a schema that was changed, or some rows of it.

use oracle::compare::{compare, exhaustive, Outcome, Selection};
use oracle::export::tree_of;
use oracle::format::{Edition, Entry, U32_LIMIT};
use oracle::generate::{family_named, Families};
use oracle::import::import;
use oracle::library::{Checker, Library, Verdict, REFERENCE_ALIGNED_TWO, REFERENCE_TWO};
use oracle::model::{Ordinals, Slot};

const SELECTION: Selection = Selection {
    count: 8_000,
    seed: 10,
    families: Families::All,
    entry: Entry::TWO,
};

const RIGHT: [Library; 2] = [REFERENCE_TWO, REFERENCE_ALIGNED_TWO];

/// Changes a slot, told whether it is declared.
type Change = fn(&mut Slot, bool);

/// Which rows a wrong library takes from the changed schema.
#[derive(Clone, Copy, PartialEq, Eq)]
enum Rows {
    All,
    /// Those of messages and unions.
    Sizes,
    /// Those of enums and flags.
    Widths,
}

struct Wrong {
    what: &'static str,
    change: Change,
    rows: Rows,
}

const fn wrong(what: &'static str, change: Change) -> Wrong {
    Wrong {
        what,
        change,
        rows: Rows::All,
    }
}

/// The first changes nothing.
const WRONG: [Wrong; 18] = [
    wrong("nothing", |_, _| {}),
    wrong("by live ones alone", |slot, _| by_live(slot)),
    wrong("flags by live ones alone", |slot, _| {
        if let Slot::Flags { .. } = slot {
            by_live(slot);
        }
    }),
    wrong("enums by live ones alone", |slot, _| {
        if let Slot::Enum { .. } = slot {
            by_live(slot);
        }
    }),
    wrong("by retired ones alone where there are some", |slot, _| {
        change(slot, |Ordinals { live, retired }| {
            if !retired.is_empty() {
                live.clear();
            }
        });
    }),
    wrong("by live ones alone where there are none", |slot, _| {
        change(slot, |Ordinals { live, retired }| {
            if live.is_empty() {
                retired.clear();
            }
        });
    }),
    wrong("by the first retired one", |slot, _| {
        change(slot, |Ordinals { retired, .. }| retired.truncate(1));
    }),
    wrong("by the last retired one", |slot, _| {
        change(slot, |Ordinals { retired, .. }| {
            retired.drain(..retired.len().saturating_sub(1));
        });
    }),
    wrong("2^32 - 1 for none", |slot, _| {
        change(slot, |Ordinals { retired, .. }| {
            retired.retain(|&one| one != U32_LIMIT);
        });
    }),
    wrong("by the number of ordinals", |slot, _| {
        change(slot, |Ordinals { live, retired }| {
            if !retired.is_empty() {
                let count = (live.len() + retired.len()) as u64;
                (*live, *retired) = (vec![], vec![count - 1]);
            }
        });
    }),
    wrong("undeclared enums too", |slot, declared| {
        if let (Slot::Enum { bits, ordinals, .. }, false) = (slot, declared) {
            *bits = (*bits).max(bits_of(ordinals));
        }
    }),
    wrong("undeclared flags too", |slot, declared| {
        if let (Slot::Flags { bytes, bits }, false) = (slot, declared) {
            if bits.retired.iter().any(|&bit| bit >= 32) {
                *bytes = 8;
            }
        }
    }),
    wrong("a backed enum widened", |slot, _| {
        if let Slot::Enum {
            backing, ordinals, ..
        } = slot
        {
            // The widths are 8 for 1, 16 for 2 and so on.
            if *backing > 0 && bits_of(ordinals) > 4 << *backing {
                *backing = 0;
            }
        }
    }),
    wrong("no backing where there are retired ones", |slot, _| {
        if let Slot::Enum {
            backing, ordinals, ..
        } = slot
        {
            if !ordinals.retired.is_empty() {
                *backing = 0;
            }
        }
    }),
    wrong("less than 8 where there are retired ones", |slot, _| {
        if let Slot::Enum {
            non_exhaustive,
            ordinals,
            ..
        } = slot
        {
            if !ordinals.retired.is_empty() {
                *non_exhaustive = 0;
            }
        }
    }),
    wrong("non_exhaustive by live ones alone", |slot, _| {
        if let Slot::Enum {
            non_exhaustive: 1, ..
        } = slot
        {
            by_live(slot);
        }
    }),
    Wrong {
        what: "sizes by live ones alone",
        change: |slot, _| by_live(slot),
        rows: Rows::Sizes,
    },
    Wrong {
        what: "rows of enums and flags by live ones alone",
        change: |slot, _| by_live(slot),
        rows: Rows::Widths,
    },
];

fn change(slot: &mut Slot, change: fn(&mut Ordinals)) {
    if let Slot::Enum { ordinals, .. } | Slot::Flags { bits: ordinals, .. } = slot {
        change(ordinals);
    }
}

fn by_live(slot: &mut Slot) {
    change(slot, |ordinals| ordinals.retired.clear());
}

/// Bits of the highest retired one.
fn bits_of(ordinals: &Ordinals) -> u64 {
    let highest = ordinals.retired.iter().max();
    highest.map_or(0, |one| u64::from(u64::BITS - one.leading_zeros()))
}

/// The image of the changed schema, if there is a schema.
fn changed(image: &[u8], change: Change) -> Option<Vec<u8>> {
    let schema = import(image, Edition::Two).ok()?.schema;
    let mut tree = tree_of(&schema, Edition::Two).expect("what was read fits");
    for (number, slot) in (0..).zip(&mut tree.slots) {
        change(slot, tree.declarations.contains(&number));
    }
    Some(tree.bytes(Edition::Two))
}

fn check<const CASE: usize, const LAYOUT: usize>(
    image: &[u8],
    sizes: &mut [u64],
    findings: &mut [u32],
) -> Verdict {
    let Wrong { change, rows, .. } = &WRONG[CASE];
    let right = RIGHT[LAYOUT].check.expect("the reference has all");
    let verdict = right(image, sizes, findings);
    let Some(other) = changed(image, *change) else {
        return verdict;
    };
    if *rows == Rows::All {
        return right(&other, sizes, findings);
    }
    let mut table = vec![0; sizes.len()];
    if verdict.number == 0 && right(&other, &mut table, findings).number == 0 {
        for (row, other) in sizes.chunks_mut(3).zip(table.chunks(3)) {
            if matches!(other[0], 1..=3) == (*rows == Rows::Sizes) {
                row.copy_from_slice(other);
            }
        }
    }
    verdict
}

/// Of each case those of both layouts.
macro_rules! checkers {
    ($($case:literal)*) => {
        [$([check::<$case, 0> as Checker, check::<$case, 1>]),*]
    };
}

const CHECKERS: [[Checker; 2]; WRONG.len()] =
    checkers! { 0 1 2 3 4 5 6 7 8 9 10 11 12 13 14 15 16 17 };

/// The libraries of both layouts, and what is wrong with them.
fn libraries() -> impl Iterator<Item = (&'static str, Library)> {
    let cases = WRONG.iter().zip(CHECKERS);
    cases.flat_map(|(wrong, checkers)| {
        let libraries = RIGHT.into_iter().zip(checkers);
        libraries.map(move |(right, check)| {
            let library = Library {
                check: Some(check),
                ..right
            };
            (wrong.what, library)
        })
    })
}

fn wrong_libraries() -> impl Iterator<Item = (&'static str, Library)> {
    libraries().filter(|&(what, _)| what != WRONG[0].what)
}

fn run(library: Library, families: Families) -> Outcome {
    let selection = Selection {
        families,
        entry: library.entry,
        ..SELECTION
    };
    compare(selection, library)
}

/// Schemas are written anew, and that alone is not told.
#[test]
fn an_unchanged_schema_is_answered_alike() {
    for (_, library) in libraries().take(RIGHT.len()) {
        assert_eq!(run(library, Families::All).difference, None);
    }
}

#[test]
fn wrong_widths_are_told() {
    for (what, library) in wrong_libraries() {
        let family = family_named("held-widths", library.entry).expect("a family");
        for families in [Families::All, Families::One(family)] {
            let difference = run(library, families).difference;
            let entry = library.entry;
            let difference = difference.unwrap_or_else(|| panic!("{what}, {entry:?}"));
            let number = difference.expected.verdict.number;
            assert!(matches!(number, 0 | 11 | 14), "{what}: {number}");
        }
    }
}

/// Other families tell the plainest of them too.
#[test]
fn widths_by_live_ones_are_told_elsewhere() {
    for (what, library) in wrong_libraries().take(6) {
        for family in ["valid", "loose", "retired"] {
            let number = family_named(family, library.entry).expect("a family");
            let outcome = run(library, Families::One(number));
            assert!(outcome.difference.is_some(), "{what}, {family}");
        }
    }
}

/// The gaps with a declared slot tell what hangs on one retired one.
#[test]
fn short_images_tell_wrong_widths() {
    let told = [
        "by live ones alone",
        "flags by live ones alone",
        "enums by live ones alone",
        "by retired ones alone where there are some",
        "by live ones alone where there are none",
        "by the number of ordinals",
        "less than 8 where there are retired ones",
    ];
    let packed = wrong_libraries().filter(|(_, library)| library.entry == Entry::TWO);
    for (what, library) in packed.filter(|(what, _)| told.contains(what)) {
        let outcome = exhaustive(2, library);
        assert!(outcome.difference.is_some(), "{what}");
    }
}

#[test]
fn the_smallest_image_is_small() {
    let (_, library) = wrong_libraries().next().expect("by live ones alone");
    let outcome = run(library, Families::All).shrunk(library);
    let difference = outcome.difference.expect("a difference");
    // One slot, declared, without live ones and with one retired one.
    let image = &difference.image;
    assert!(image.len() <= 11, "{image:02x?}");
    assert_eq!(difference.expected.verdict.number, 0);
}

/// Without the family, each layout has too few sizes that pass the limit by
/// retired ones.
#[test]
fn floors_need_the_family() {
    for library in RIGHT {
        let family = family_named("held-widths", library.entry).expect("a family");
        let few = run(library, Families::Without(family)).below_floor(library.entry);
        for number in [11, 14] {
            let told = format!("accepted by live ones alone, but refused {number}");
            assert!(few.iter().any(|few| few.starts_with(&told)), "{few:?}");
        }
        let outcome = run(library, Families::All);
        assert_eq!(outcome.below_floor(library.entry), [""; 0]);
    }
}
