//! Runs over images of edition two: the floors that they are held to, wrong
//! readings that they have to tell, and the option for it. `held_runs.rs` has wrong
//! widths, `limited_runs.rs` wrong limits.

mod command;

use command::oracle;
use oracle::compare::{compare, exhaustive, Outcome, Selection};
use oracle::format::{Edition, Entry, Layout, IMAGE_LIMIT};
use oracle::generate::{family_named, Families};
use oracle::import::{import, Added};
use oracle::library::{Library, Verdict, REFERENCE, REFERENCE_TWO};
use oracle::tally::numbers;

const SELECTION: Selection = Selection {
    count: 8_000,
    seed: 4,
    families: Families::All,
    entry: Entry::TWO,
};

#[test]
fn reference_equals_itself() {
    let outcome = compare(SELECTION, REFERENCE_TWO);
    assert_eq!(outcome.difference, None);
    assert!(outcome.passed());
    assert_eq!(outcome.below_floor(Entry::TWO), [""; 0]);
    // Refusal 1 takes long images, which are rare in edition one.
    for &number in numbers(Layout::Packed) {
        assert!(outcome.calls[number] > 0, "no call answers {number}");
    }
}

#[test]
fn all_short_images() {
    let outcome = exhaustive(2, REFERENCE_TWO);
    assert_eq!(outcome.difference, None);
    // All of two bytes, and of one byte in each of twelve gaps.
    let images = 1 + 256 + 65_536 + 12 * (1 + 256);
    assert_eq!(outcome.tally.images(), images);
    assert!(outcome.passed());
}

/// What a run has too few of without a family.
fn below_floor_without(name: &str) -> Vec<String> {
    let family = family_named(name, Entry::TWO).expect("a family");
    let selection = Selection {
        families: Families::Without(family),
        ..SELECTION
    };
    compare(selection, REFERENCE_TWO).below_floor(Entry::TWO)
}

/// The families of edition two alone are missed where they are left out.
#[test]
fn floors_need_their_families() {
    for (name, told) in [
        ("added-numbers", "retired count refused by 3"),
        ("retired", "retired lists, flags, long"),
        ("first-edition", "images of edition one: 0, not 160"),
        (
            "both-editions",
            "images answered otherwise by both editions",
        ),
        ("held-widths", "accepted by live ones alone, but refused 14"),
        (
            "limited-arrays",
            "accepted without limits, but refused 14, the",
        ),
    ] {
        let few = below_floor_without(name);
        let is_told = few.iter().any(|few| few.starts_with(told));
        assert!(is_told, "{name}: {few:?}");
    }
}

fn run_family(name: &str, library: Library) -> Outcome {
    let family = family_named(name, Entry::TWO).expect("a family");
    let selection = Selection {
        count: 1_000,
        families: Families::One(family),
        ..SELECTION
    };
    compare(selection, library)
}

/// One family alone has too few of nearly everything.
#[test]
fn floors_are_told() {
    let few = run_family("traits", REFERENCE_TWO).below_floor(Entry::TWO);
    for told in [
        "limits, Mat4, variant: 0, not 1",
        "retired lists, flags, live too: 0, not 1",
        "images answered otherwise by both editions: 0, not 6",
        "retired ones, flags, 8 bytes, not 4: 0, not 1",
        "accepted without limits, but refused 11, key and value: 0, not 1",
    ] {
        assert!(few.iter().any(|few| few == told), "{told}: {few:?}");
    }
    assert!(family_named("retired", Entry::ONE).is_none());
}

#[test]
fn editions_are_1_and_2() {
    let families = |edition| oracle(&["families", "--edition", edition]);
    assert_eq!(oracle(&["families"]), families("1"));
    let two = families("2").expect("families");
    assert!(two.ends_with("first-edition\nheld-widths\nlimited-arrays\n"));
    let told = |edition| format!("oracle: --edition is 1 or 2, not {edition}\n");
    for edition in ["0", "3", "two", "--count"] {
        assert_eq!(families(edition), Err(told(edition)));
    }
    let nothing = oracle(&["families", "--edition"]);
    assert_eq!(nothing, Err("oracle: --edition is 1 or 2\n".into()));
    let kept = Err("oracle: this command has no --edition 2\n".into());
    for command in [
        "record-lines",
        "program",
        "stress",
        "lengths",
        "stack",
        "bench",
    ] {
        let file = ["--out", "/dev/null", "--binary", "true"];
        let arguments = [&[command, "--edition", "2"], &file[..]].concat();
        assert_eq!(oracle(&arguments), kept, "{command}");
    }
}

/// The reference, where `wrong` does not answer.
fn or_reference(
    wrong: Option<Verdict>,
    image: &[u8],
    sizes: &mut [u64],
    findings: &mut [u32],
) -> Verdict {
    let check = REFERENCE_TWO.check.expect("the reference has all");
    let verdict = check(image, sizes, findings);
    wrong.unwrap_or(verdict)
}

/// Accepts what is refused at such a number by 4.
fn without_range(image: &[u8], is_meant: fn(Added) -> bool) -> Option<Verdict> {
    let refusal = import(image, Edition::Two).err()?;
    let meant = refusal.number == 4 && refusal.added.is_some_and(is_meant);
    meant.then_some(Verdict {
        number: 0,
        value: 0,
    })
}

#[test]
fn wrong_readings_are_told() {
    let of_edition_one = Library {
        entry: Entry::TWO,
        sizes: None,
        ..REFERENCE
    };
    let any_limit = Library {
        check: Some(|image, sizes, findings| {
            let wrong = without_range(image, |added| added == Added::Limit);
            or_reference(wrong, image, sizes, findings)
        }),
        ..REFERENCE_TWO
    };
    let any_count = Library {
        check: Some(|image, sizes, findings| {
            let wrong = without_range(image, |added| added == Added::RetiredCount);
            or_reference(wrong, image, sizes, findings)
        }),
        ..REFERENCE_TWO
    };
    let one_byte_more = Library {
        check: Some(|image, sizes, findings| {
            let wrong = (image.len() == IMAGE_LIMIT + 1).then_some(Verdict {
                number: 0,
                value: 0,
            });
            or_reference(wrong, image, sizes, findings)
        }),
        ..REFERENCE_TWO
    };
    for (library, family) in [
        (of_edition_one, "valid"),
        (of_edition_one, "both-editions"),
        (any_limit, "added-numbers"),
        (any_count, "added-numbers"),
        (one_byte_more, "bounds"),
    ] {
        assert!(run_family(family, library).difference.is_some(), "{family}");
    }
}
