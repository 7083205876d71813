//! The comparer and the shrinker, with libraries that are wrong on purpose.

use std::sync::atomic::{AtomicU64, Ordering};

use oracle::answer::Part;
use oracle::compare::{compare, exhaustive, smallest_difference, Outcome, Selection};
use oracle::format::{Edition, Entry, Layout};
use oracle::generate::{family_named, Families};
use oracle::import::import;
use oracle::ir::TypeDef;
use oracle::library::{Call, Library, Verdict, REFERENCE};
use oracle::tally::numbers;

const SELECTION: Selection = Selection {
    count: 20_000,
    seed: 3,
    families: Families::All,
    entry: Entry::ONE,
};

/// The reference without findings, which take longer.
const SIZES: Library = Library {
    check: None,
    ..REFERENCE
};

fn reference_sizes(image: &[u8], sizes: &mut [u64]) -> Verdict {
    let size = REFERENCE.sizes.expect("the reference has all");
    size(image, sizes)
}

fn run_family(name: &str, library: Library) -> Outcome {
    let family = family_named(name, library.entry).expect("a family");
    let selection = Selection {
        count: 1_000,
        seed: 5,
        families: Families::One(family),
        entry: library.entry,
    };
    compare(selection, library)
}

fn refused(number: u64) -> Verdict {
    Verdict { number, value: 0 }
}

#[test]
fn reference_equals_itself() {
    let selection = Selection {
        count: 4_000,
        ..SELECTION
    };
    let outcome = compare(selection, REFERENCE);
    assert_eq!(outcome.difference, None);
    assert_eq!(outcome.tally.images(), selection.count);
    assert!(outcome.passed());
    assert!(outcome.tally.below_floor(Entry::ONE).is_empty());
    let unions = outcome.tally.unions();
    assert!(unions.iter().all(|&turns| turns > 50), "{unions:?}");
    let first_steps = outcome.tally.first_steps();
    for (part, counts) in Part::ALL.iter().zip(first_steps) {
        // Edition one has no limits.
        let met = |&count: &u64| (count > 5) == (*part != Part::Limited);
        assert!(counts.iter().all(met), "{part:?} {counts:?}");
    }
    // Refusal 1 takes long images, which are rare.
    for &number in numbers(Layout::Packed)
        .iter()
        .filter(|&&number| number != 1)
    {
        assert!(outcome.calls[number] > 0, "no call answers {number}");
    }
}

/// One family alone has too few of nearly everything.
#[test]
fn floor_is_told() {
    let few = run_family("traits", REFERENCE)
        .tally
        .below_floor(Entry::ONE);
    let told = "trait fields, found, Mat4, whole: 0, not 4";
    assert!(few.iter().any(|few| few == told), "{few:?}");
}

#[test]
fn difference_is_found_and_shrunk() {
    // Takes an array's size for 32 bits wide.
    let library = Library {
        sizes: Some(|image, sizes| {
            let verdict = reference_sizes(image, sizes);
            let wide = |run: &[u8]| run.iter().all(|&byte| byte >= 0x80);
            if verdict.number == 0 && image.windows(6).any(wide) {
                sizes.fill(0);
                return refused(4);
            }
            verdict
        }),
        ..SIZES
    };
    let outcome = compare(SELECTION, library).shrunk(library);
    let difference = outcome.difference.expect("a difference");
    assert!(difference.image.len() <= 24, "{:02x?}", difference.image);
    assert!(matches!(difference.call, Call::Sizes { .. }));
    assert_eq!(difference.expected.verdict.number, 0);
    assert_eq!(difference.ours.verdict.number, 4);
    let again = smallest_difference(&difference.image, library);
    assert_eq!(again, Some(difference));
}

#[test]
fn untouched_start_is_seen() {
    let library = Library {
        read: |image, starts| {
            let kept = starts.last().copied();
            let verdict = (REFERENCE.read)(image, starts);
            if let (Some(last), Some(kept)) = (starts.last_mut(), kept) {
                *last = kept;
            }
            verdict
        },
        ..SIZES
    };
    let difference = compare(SELECTION, library).shrunk(library).difference;
    assert!(difference.expect("a difference").image.is_empty());
}

#[test]
fn untouched_size_is_seen_even_on_refusal() {
    let library = Library {
        sizes: Some(|image, sizes| {
            let kept = sizes.to_vec();
            let verdict = reference_sizes(image, sizes);
            if verdict.number == 10 {
                sizes.copy_from_slice(&kept);
            }
            verdict
        }),
        ..SIZES
    };
    let difference = run_family("valid", library).shrunk(library).difference;
    let difference = difference.expect("a difference");
    assert_eq!(difference.expected.verdict, refused(10));
    // One slot, one place less than it takes.
    assert_eq!(difference.call, Call::Sizes { sizes: 2 });
}

#[test]
fn write_past_the_table_is_seen() {
    let library = Library {
        sizes: Some(|image, sizes| {
            let verdict = reference_sizes(image, sizes);
            // SAFETY: the comparer keeps places past each table.
            unsafe { sizes.as_mut_ptr().add(sizes.len()).write(0) };
            verdict
        }),
        ..SIZES
    };
    let difference = run_family("valid", library).difference;
    assert!(difference.expect("a difference").ours.beyond);
}

/// Each wrong library differs on the family that is there for it.
#[test]
fn families_show_wrong_sizes() {
    let no_limit: Library = Library {
        sizes: Some(|image, sizes| {
            let verdict = reference_sizes(image, sizes);
            match verdict.number {
                11 | 14 => refused(0),
                _ => verdict,
            }
        }),
        ..SIZES
    };
    for family in ["limits", "edges", "turns"] {
        assert!(
            run_family(family, no_limit).difference.is_some(),
            "{family}"
        );
    }
    let long_stack_only: Library = Library {
        sizes: Some(|image, sizes| match image.len() > 20_000 {
            true => refused(1),
            false => reference_sizes(image, sizes),
        }),
        ..SIZES
    };
    assert!(run_family("deep", long_stack_only).difference.is_some());
}

/// The images compared tell a sum from a product.
#[test]
fn families_show_wrong_numbers() {
    let all_sums: Library = Library {
        sizes: Some(|image, sizes| {
            let verdict = reference_sizes(image, sizes);
            let number = match verdict.number {
                14 => 11,
                number => number,
            };
            Verdict { number, ..verdict }
        }),
        ..SIZES
    };
    for family in ["limits", "edges"] {
        let difference = run_family(family, all_sums).difference;
        let difference = difference.expect("a difference");
        assert_eq!(difference.expected.verdict.number, 14, "{family}");
    }
}

/// How many variants a slot has, if it is a declared union.
fn variants_of(image: &[u8], slot: u64) -> Option<usize> {
    let schema = import(image, Edition::One).ok()?.schema;
    let mut declared = schema.declarations.iter();
    let id = declared.find(|id| u64::from(id.index()) == slot)?;
    match schema.registry.get(*id)? {
        TypeDef::Union(un) => Some(un.variants.len()),
        _ => None,
    }
}

/// The reference, but for unions of so many variants, which have this row.
fn unions_as(variants: usize, row: [u64; 3], image: &[u8], sizes: &mut [u64]) -> Verdict {
    let verdict = reference_sizes(image, sizes);
    for (slot, place) in sizes.chunks_exact_mut(3).enumerate() {
        if verdict.number == 0 && variants_of(image, slot as u64) == Some(variants) {
            place.copy_from_slice(&row);
        }
    }
    verdict
}

/// The images compared tell each wrong union from the right one.
#[test]
fn families_show_wrong_unions() {
    let empty_to_nine = Library {
        sizes: Some(|image, sizes| unions_as(0, [2, 8, 9], image, sizes)),
        ..SIZES
    };
    assert!(run_family("valid", empty_to_nine).difference.is_some());
    let smallest = [0, 1, 4, 0, 0, 1, 0];
    let difference = smallest_difference(&smallest, empty_to_nine);
    assert_eq!(difference.expect("a difference").image, smallest);

    let one_as_none = Library {
        sizes: Some(|image, sizes| unions_as(1, [2, 8, 8], image, sizes)),
        ..SIZES
    };
    assert!(run_family("valid", one_as_none).difference.is_some());

    let no_variant_tested = Library {
        sizes: Some(|image, sizes| {
            let verdict = reference_sizes(image, sizes);
            match verdict.number {
                11 | 14 if variants_of(image, verdict.value).is_some() => refused(0),
                _ => verdict,
            }
        }),
        ..SIZES
    };
    assert!(run_family("edges", no_variant_tested).difference.is_some());
}

#[test]
fn wrong_finding_is_seen() {
    let library = Library {
        check: Some(|image, sizes, findings| {
            let check = REFERENCE.check.expect("the reference has all");
            let verdict = check(image, sizes, findings);
            if verdict.number == 0 && findings.first() == Some(&4) {
                findings[4] += 1;
            }
            verdict
        }),
        ..REFERENCE
    };
    let difference = run_family("traits", library).difference;
    let difference = difference.expect("a difference");
    assert!(matches!(difference.call, Call::Check { .. }));
    assert_eq!(difference.expected.verdict.number, 0);
}

#[test]
fn all_images_of_two_bytes() {
    let outcome = exhaustive(2, SIZES);
    assert_eq!(outcome.difference, None);
    assert_eq!(outcome.tally.images(), 1 + 256 + 65_536);
}

/// Errs on one call of `check` and on no other, whatever the image.
fn errs_once(count: &AtomicU64, call: u64, sizes: &mut [u64], verdict: Verdict) -> Verdict {
    match count.fetch_add(1, Ordering::Relaxed) == call {
        false => verdict,
        true => {
            sizes.fill(1);
            Verdict {
                number: 99,
                value: 99,
            }
        }
    }
}

/// A difference is kept though the library never errs again.
#[test]
fn one_wrong_call_is_told() {
    static CALLS: AtomicU64 = AtomicU64::new(0);
    let library = Library {
        sizes: Some(|image, sizes| {
            let verdict = reference_sizes(image, sizes);
            errs_once(&CALLS, 5_000, sizes, verdict)
        }),
        ..SIZES
    };
    let outcome = compare(SELECTION, library).shrunk(library);
    assert!(!outcome.passed());
    assert!(outcome.first.is_some());
    let difference = outcome.difference.expect("a difference");
    assert_eq!(difference.ours.verdict.number, 99);
    assert!(
        CALLS.load(Ordering::Relaxed) > 5_001,
        "shrinking called again"
    );
    // Asked once more, it answers rightly.
    assert_eq!(smallest_difference(&difference.image, library), None);
}

#[test]
fn one_wrong_call_is_told_of_all_short_images() {
    static CALLS: AtomicU64 = AtomicU64::new(0);
    let library = Library {
        sizes: Some(|image, sizes| {
            let verdict = reference_sizes(image, sizes);
            errs_once(&CALLS, 100_000, sizes, verdict)
        }),
        ..SIZES
    };
    let outcome = exhaustive(2, library).shrunk(library);
    assert!(!outcome.passed());
    let difference = outcome.difference.expect("a difference");
    assert_eq!(difference.ours.verdict.number, 99);
}

/// The call that showed a difference is the last wrong one: the image stays.
#[test]
fn shrinking_begins_at_what_was_seen() {
    static CALLS: AtomicU64 = AtomicU64::new(0);
    let library = Library {
        sizes: Some(|image, sizes| {
            let verdict = reference_sizes(image, sizes);
            errs_once(&CALLS, 0, sizes, verdict)
        }),
        ..SIZES
    };
    let image = [0, 1, 4, 0, 0, 1, 0];
    let difference = smallest_difference(&image, library).expect("a difference");
    assert_eq!(difference.image, image);
    assert_eq!(difference.ours.verdict.number, 99);
}

/// Of many images that differ the same one is told, whatever the threads do.
#[test]
fn first_image_that_differs_is_the_same_each_time() {
    let library = Library {
        sizes: Some(|image, sizes| {
            let verdict = reference_sizes(image, sizes);
            match verdict.number == 0 && image.len() % 50 == 49 {
                true => refused(99),
                false => verdict,
            }
        }),
        ..SIZES
    };
    let runs: Vec<Outcome> = (0..4).map(|_| compare(SELECTION, library)).collect();
    assert!(runs[0].first.is_some());
    for run in &runs {
        assert_eq!(run.first, runs[0].first);
        assert_eq!(run.difference, runs[0].difference);
    }
}

/// A run that takes fewer images than asked does not pass.
#[test]
fn missing_images_are_told() {
    let selection = Selection {
        count: 100,
        ..SELECTION
    };
    let mut outcome = compare(selection, SIZES);
    assert!(outcome.passed());
    outcome.asked += 1;
    assert!(!outcome.passed());
    assert_eq!(outcome.difference, None);
}
