//! Runs over images for the head board: the floors that they are held to, wrong
//! libraries that they have to tell, and the option for it.

mod command;
// Of the wrong sizes only those of rounding are compared here.
#[allow(dead_code)]
mod wrong_sizes;

use command::oracle;
use oracle::answer::{bringing, Whole};
use oracle::compare::{compare, exhaustive, smallest_difference, Outcome, Selection};
use oracle::export::tree_of;
use oracle::format::{Edition, Entry, Layout};
use oracle::generate::{family_named, Families};
use oracle::import::{import, read};
use oracle::ir::CompiledSchema;
use oracle::library::{
    Checker, Library, Verdict, REFERENCE, REFERENCE_ALIGNED, REFERENCE_ALIGNED_TWO, REFERENCE_TWO,
};
use oracle::tally::numbers;
use wrong_sizes::{table, Wrong};

const SELECTION: Selection = Selection {
    count: 8_000,
    seed: 6,
    families: Families::All,
    entry: Entry::ALIGNED,
};

fn selection(library: Library) -> Selection {
    Selection {
        entry: library.entry,
        ..SELECTION
    }
}

#[test]
fn reference_equals_itself() {
    for library in [REFERENCE_ALIGNED, REFERENCE_ALIGNED_TWO] {
        let outcome = compare(selection(library), library);
        assert_eq!(outcome.difference, None);
        assert!(outcome.passed());
        assert_eq!(outcome.below_floor(library.entry), [""; 0]);
        // Refusal 1 takes long images, which are rare in edition one.
        let numbers = numbers(Layout::Aligned).iter();
        for &number in numbers.filter(|&&number| number != 1) {
            assert!(outcome.calls[number] > 0, "no call answers {number}");
        }
        assert!(outcome.tally.totals()[0] > selection(library).count / 3);
    }
}

#[test]
fn all_short_images() {
    let all = |bytes: u32| (0..=bytes).map(|length| 256u64.pow(length)).sum::<u64>();
    // Four gaps that bear on the head board, twelve of edition two.
    for (library, more) in [(REFERENCE_ALIGNED, 0), (REFERENCE_ALIGNED_TWO, 12)] {
        let outcome = exhaustive(2, library);
        assert_eq!(outcome.difference, None);
        assert_eq!(outcome.tally.images(), 5 * all(2) + more * all(1));
        assert!(outcome.passed());
        assert!(outcome.calls[15] > 0);
    }
}

/// What a run has too few of without a family.
fn below_floor_without(name: &str) -> Vec<String> {
    let family = family_named(name, Entry::ALIGNED).expect("a family");
    let selection = Selection {
        families: Families::Without(family),
        ..SELECTION
    };
    compare(selection, REFERENCE_ALIGNED).below_floor(Entry::ALIGNED)
}

/// The families of the head board alone are missed where they are left out.
#[test]
fn floors_need_their_families() {
    for (name, told) in [
        ("bits-over", "variant fields, from, 7 bits over"),
        ("rounding", "refused by rounding at the largest alone, in a"),
        ("brought", "refused 15 at a union, neither, open"),
    ] {
        let few = below_floor_without(name);
        let is_told = few.iter().any(|few| few.starts_with(told));
        assert!(is_told, "{name}: {few:?}");
    }
}

fn run_family(name: &str, library: Library) -> Outcome {
    let family = family_named(name, library.entry).expect("a family");
    let selection = Selection {
        count: 2_000,
        families: Families::One(family),
        ..selection(library)
    };
    compare(selection, library)
}

/// One family alone has too few of nearly everything.
#[test]
fn floors_are_told() {
    let few = run_family("traits", REFERENCE_ALIGNED).below_floor(Entry::ALIGNED);
    for told in [
        "message fields, largest, 5 bits over: 0, not 1",
        "refused by rounding at the smallest: 0, not 1",
        "refused 15, packed 14: 0, not 1",
        "images answered 15: 0, not 100",
    ] {
        assert!(few.iter().any(|few| few == told), "{told}: {few:?}");
    }
    for entry in [Entry::ONE, Entry::TWO] {
        assert!(family_named("bits-over", entry).is_none());
    }
    assert!(family_named("retired", Entry::ALIGNED).is_none());
    assert!(family_named("retired", Entry::ALIGNED_TWO).is_some());
}

#[test]
fn layouts_are_packed_and_aligned() {
    let families = |layout| oracle(&["families", "--layout", layout]);
    assert_eq!(oracle(&["families"]), families("packed"));
    let aligned = families("aligned").expect("families");
    assert!(aligned.ends_with("bits-over\nrounding\nbrought\n"));
    assert!(!aligned.contains("retired"));
    let both = oracle(&["families", "--layout", "aligned", "--edition", "2"]);
    assert!(both.expect("families").contains("retired"));
    let told = "oracle: --layout is packed or aligned, not 2\n";
    assert_eq!(families("2"), Err(told.into()));
    let kept = Err("oracle: this command has no --layout aligned\n".into());
    for command in [
        "record-lines",
        "program",
        "stress",
        "lengths",
        "stack",
        "bench",
        "export-example",
    ] {
        let file = ["--out", "/dev/null", "--binary", "true"];
        let arguments = [&[command, "--layout", "aligned"], &file[..]].concat();
        assert_eq!(oracle(&arguments), kept, "{command}");
    }
}

fn reference(library: Library, image: &[u8], sizes: &mut [u64], findings: &mut [u32]) -> Verdict {
    let check = library.check.expect("the reference has all");
    check(image, sizes, findings)
}

fn aligned(image: &[u8], sizes: &mut [u64], findings: &mut [u32]) -> Verdict {
    reference(REFERENCE_ALIGNED, image, sizes, findings)
}

/// An answer without tables.
fn refused(number: u64, sizes: &mut [u64], findings: &mut [u32]) -> Verdict {
    sizes.fill(0);
    findings.fill(0);
    Verdict { number, value: 0 }
}

fn with(check: Checker) -> Library {
    Library {
        check: Some(check),
        ..REFERENCE_ALIGNED
    }
}

/// The reference, but that rows are those of a wrong rule, where they change.
fn wrong_rows<const CASE: usize>(image: &[u8], sizes: &mut [u64], findings: &mut [u32]) -> Verdict {
    let verdict = aligned(image, sizes, findings);
    if verdict.number == 0 {
        let schema = import(image, Edition::One).expect("accepted").schema;
        let tree = tree_of(&schema, Edition::One).expect("what was read fits");
        let rows = table(&tree, Layout::Aligned, Wrong::OF_ROUNDING[CASE]);
        sizes[..rows.len()].copy_from_slice(&rows);
    }
    verdict
}

const WRONG_ROWS: [Checker; 15] = [
    wrong_rows::<0>,
    wrong_rows::<1>,
    wrong_rows::<2>,
    wrong_rows::<3>,
    wrong_rows::<4>,
    wrong_rows::<5>,
    wrong_rows::<6>,
    wrong_rows::<7>,
    wrong_rows::<8>,
    wrong_rows::<9>,
    wrong_rows::<10>,
    wrong_rows::<11>,
    wrong_rows::<12>,
    wrong_rows::<13>,
    wrong_rows::<14>,
];

/// Parts or totals rounded, 8..8 taken for Fixed, and so on.
#[test]
fn wrong_rounding_is_told() {
    assert_eq!(WRONG_ROWS.len(), Wrong::OF_ROUNDING.len());
    for (check, wrong) in WRONG_ROWS.into_iter().zip(Wrong::OF_ROUNDING) {
        for family in ["valid", "bits-over"] {
            let difference = run_family(family, with(check)).difference;
            let difference = difference.unwrap_or_else(|| panic!("{wrong:?} in {family}"));
            assert_eq!(difference.expected.verdict.number, 0, "{wrong:?}");
        }
    }
}

/// Accepts what is refused by rounding in one of these ways.
fn without_limit(
    ways: [bool; 3],
    image: &[u8],
    sizes: &mut [u64],
    findings: &mut [u32],
) -> Verdict {
    let verdict = aligned(image, sizes, findings);
    let passing = Whole::sizes_of(image, Entry::ALIGNED)
        .notes
        .rounding
        .passing;
    let mut met = ways.iter().zip(passing);
    match verdict.number == 11 && met.any(|(way, passing)| *way && passing) {
        true => refused(0, sizes, findings),
        false => verdict,
    }
}

#[test]
fn rounding_without_its_limit_is_told() {
    let checks: [Checker; 3] = [
        |image, sizes, findings| without_limit([true, false, false], image, sizes, findings),
        |image, sizes, findings| without_limit([false, true, false], image, sizes, findings),
        |image, sizes, findings| without_limit([false, false, true], image, sizes, findings),
    ];
    for check in checks {
        let difference = run_family("rounding", with(check)).difference;
        let difference = difference.expect("a difference");
        assert_eq!(difference.expected.verdict.number, 11);
    }
    let all_products = with(|image, sizes, findings| {
        let verdict = aligned(image, sizes, findings);
        match verdict.number {
            11 => Verdict {
                number: 14,
                ..verdict
            },
            _ => verdict,
        }
    });
    let difference = run_family("rounding", all_products).difference;
    assert!(difference.is_some());
}

/// The lowest slot that brings a size and is meant.
fn lowest(image: &[u8], meant: fn(&CompiledSchema, usize) -> bool) -> Option<u64> {
    let schema = read(image, Edition::One).ok()?.schema;
    let mut slots = bringing(&schema).filter(|&slot| meant(&schema, slot));
    slots.next().map(|slot| slot as u64)
}

fn is_declared(schema: &CompiledSchema, slot: usize) -> bool {
    let mut declared = schema.declarations.iter();
    declared.any(|id| id.index() as usize == slot)
}

/// Refuses by 15 only for slots that are meant.
fn fifteen_for(
    meant: fn(&CompiledSchema, usize) -> bool,
    image: &[u8],
    sizes: &mut [u64],
    findings: &mut [u32],
) -> Verdict {
    let verdict = aligned(image, sizes, findings);
    match (verdict.number, lowest(image, meant)) {
        (15, Some(value)) => Verdict { value, ..verdict },
        (15, None) => reference(REFERENCE, image, sizes, findings),
        _ => verdict,
    }
}

/// Puts the refusals of the packed check before 15, if it is one of these.
fn fifteen_after(
    numbers: &[u64],
    image: &[u8],
    sizes: &mut [u64],
    findings: &mut [u32],
) -> Verdict {
    let packed = reference(REFERENCE, image, sizes, findings);
    let verdict = aligned(image, sizes, findings);
    match verdict.number == 15 && numbers.contains(&packed.number) {
        true => packed,
        false => verdict,
    }
}

#[test]
fn wrong_places_and_ranks_of_15_are_told() {
    let declared_only: Checker =
        |image, sizes, findings| fifteen_for(is_declared, image, sizes, findings);
    let undeclared_only: Checker = |image, sizes, findings| {
        fifteen_for(
            |schema, slot| !is_declared(schema, slot),
            image,
            sizes,
            findings,
        )
    };
    let never: Checker = |image, sizes, findings| fifteen_for(|_, _| false, image, sizes, findings);
    let after_10: Checker = |image, sizes, findings| fifteen_after(&[10], image, sizes, findings);
    let after_11: Checker = |image, sizes, findings| fifteen_after(&[11], image, sizes, findings);
    let after_12: Checker = |image, sizes, findings| fifteen_after(&[12], image, sizes, findings);
    let after_14: Checker = |image, sizes, findings| fifteen_after(&[14], image, sizes, findings);
    let at_0: Checker = |image, sizes, findings| {
        let verdict = aligned(image, sizes, findings);
        match verdict.number {
            15 => refused(15, sizes, findings),
            _ => verdict,
        }
    };
    for check in [
        declared_only,
        undeclared_only,
        never,
        after_10,
        after_11,
        after_12,
        after_14,
        at_0,
    ] {
        let difference = run_family("brought", with(check)).difference;
        let difference = difference.expect("a difference");
        assert_eq!(difference.expected.verdict.number, 15);
    }
}

#[test]
fn fifteen_before_its_turn_is_told() {
    let before_9 = with(|image, sizes, findings| {
        let verdict = aligned(image, sizes, findings);
        match (verdict.number, lowest(image, |_, _| true)) {
            (7..=9, Some(value)) => Verdict { number: 15, value },
            _ => verdict,
        }
    });
    let difference = run_family("brought", before_9).difference;
    let number = difference.expect("a difference").expected.verdict.number;
    assert!(matches!(number, 7..=9), "{number}");
}

/// The ordinary entries know no 15 and do not round.
#[test]
fn the_head_board_in_the_ordinary_entry_is_told() {
    for (right, wrong) in [
        (REFERENCE, REFERENCE_ALIGNED),
        (REFERENCE_TWO, REFERENCE_ALIGNED_TWO),
        (REFERENCE_ALIGNED, REFERENCE),
        (REFERENCE_ALIGNED_TWO, REFERENCE_TWO),
    ] {
        let library = Library {
            check: wrong.check,
            sizes: None,
            ..right
        };
        for family in ["valid", "stored"] {
            assert!(run_family(family, library).difference.is_some(), "{family}");
        }
    }
    let only_15 = Library {
        check: Some(|image, sizes, findings| {
            let packed = reference(REFERENCE, image, sizes, findings);
            match lowest(image, |_, _| true) {
                Some(value) if packed.number == 0 => {
                    refused(15, sizes, findings);
                    Verdict { number: 15, value }
                }
                _ => packed,
            }
        }),
        sizes: None,
        ..REFERENCE
    };
    assert!(run_family("stored", only_15).difference.is_some());
    // A union that brings 0 bits and is not declared.
    let smallest = [0, 1, 4, 1, 0, 0, 0];
    let difference = smallest_difference(&smallest, only_15);
    assert_eq!(difference.expect("a difference").image, smallest);
}
