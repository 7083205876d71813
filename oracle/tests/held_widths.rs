//! Retired ones hold the width of a declared enum or of declared flags, and so the
//! sizes that are worked out with it. By hand, in both layouts, beside the images
//! of edition one that are left without them and with them live.

mod taken_out;

use oracle::answer::{answer, Answer, RetiredCounts, Whole, PROGRAM_PLACES};
use oracle::format::{write_number, Edition, Entry, Layout, SIZE_LIMIT};
use oracle::model::{
    field, fixed, message, pair, union, wrap, Encoding, Field, Ordinals, Schema, Slot, Tree, ARRAY,
    BOOL, MAP, MAT4, OPTIONAL, RESULT, SET, U32, U8, VEC3,
};
use taken_out::{moved, taken_out};

const MOST: u64 = 0xffff_ffff;

/// The answer of each layout.
fn answered(image: &[u8], edition: Edition) -> [Answer; 2] {
    Layout::ALL.map(|layout| {
        let entry = Entry { edition, layout };
        answer(image, entry, PROGRAM_PLACES).expect("a short check")
    })
}

/// The size tables of an accepted image, packed and aligned.
fn tables(image: &[u8], edition: Edition) -> [Vec<u64>; 2] {
    answered(image, edition).map(|answer| match answer {
        Answer::Accepted { sizes, .. } => sizes,
        refused => panic!("{refused:?}: {image:02x?}"),
    })
}

/// The row of an image of edition two with one slot, an enum or flags: the same in
/// both layouts, and the one of the image whose retired ones are live.
fn row(image: &[u8]) -> [u64; 3] {
    let [packed, aligned] = tables(image, Edition::Two);
    assert_eq!(packed, aligned);
    assert_eq!(tables(&moved(image), Edition::One)[0], packed);
    packed.try_into().expect("three numbers")
}

/// The same without its retired ones.
fn row_left(image: &[u8]) -> [u64; 3] {
    let [packed, _] = tables(&taken_out(image), Edition::One);
    packed.try_into().expect("three numbers")
}

fn joined(parts: &[&[u8]]) -> Vec<u8> {
    parts.concat()
}

fn list(numbers: &[u64]) -> Vec<u8> {
    let mut bytes = vec![];
    write_number(numbers.len() as u64, &mut bytes);
    numbers
        .iter()
        .for_each(|&one| write_number(one, &mut bytes));
    bytes
}

/// No names; one slot, up to its lists.
fn image(before: &[u8], live: &[u64], retired: &[u64], is_declared: bool) -> Vec<u8> {
    let declared: &[u8] = if is_declared { &[1, 0] } else { &[0] };
    joined(&[&[0, 1], before, &list(live), &list(retired), declared])
}

fn enumeration(backing: u8, non_exhaustive: u8, live: &[u64], retired: &[u64]) -> Vec<u8> {
    image(&[2, backing, non_exhaustive, 0], live, retired, true)
}

fn flags(live: &[u64], retired: &[u64]) -> Vec<u8> {
    image(&[3, 0], live, retired, true)
}

#[test]
fn whole_images() {
    let images: [(&[u8], [u64; 3]); 8] = [
        // An enum: none live and 256 retired; neither; 300 live and 5 retired.
        (&[0, 1, 2, 0, 0, 0, 0, 1, 0x80, 2, 1, 0], [4, 9, 0]),
        (&[0, 1, 2, 0, 0, 0, 0, 0, 1, 0], [4, 1, 0]),
        (&[0, 1, 2, 0, 0, 0, 1, 0xac, 2, 1, 5, 1, 0], [4, 9, 0]),
        // A non_exhaustive one: 3 live, and 200 or 256 retired.
        (&[0, 1, 2, 0, 1, 0, 1, 3, 1, 0xc8, 1, 1, 0], [4, 8, 0]),
        (&[0, 1, 2, 0, 1, 0, 1, 3, 1, 0x80, 2, 1, 0], [4, 9, 0]),
        // One of U8.
        (&[0, 1, 2, 1, 0, 0, 0, 1, 0x80, 2, 1, 0], [4, 8, 0]),
        // Flags: bit 8 retired; the same, stored as 5 and not declared.
        (&[0, 1, 3, 0, 0, 1, 8, 1, 0], [5, 2, 0]),
        (&[0, 1, 3, 5, 0, 1, 8, 0], [5, 5, 0]),
    ];
    for (image, due) in images {
        assert_eq!(row(image), due, "{image:02x?}");
    }
}

#[test]
fn the_highest_of_live_and_retired_ordinals() {
    // Live and retired ones, and the bits: exhaustive, non_exhaustive, by live
    // ones alone.
    let enums: [(&[u64], &[u64], [u64; 3]); 14] = [
        (&[], &[], [1, 8, 1]),
        (&[], &[0], [1, 8, 1]),
        (&[], &[1], [1, 8, 1]),
        (&[], &[2], [2, 8, 1]),
        (&[], &[255], [8, 8, 1]),
        (&[], &[256], [9, 9, 1]),
        (&[], &[MOST], [32, 32, 1]),
        (&[3], &[200], [8, 8, 2]),
        (&[3], &[256], [9, 9, 2]),
        (&[300], &[5], [9, 9, 9]),
        (&[3], &[3], [2, 8, 2]),
        (&[0], &[2, 5], [3, 8, 1]),
        (&[0], &[5, 2, 5], [3, 8, 1]),
        (&[7, 1], &[8, 0], [4, 8, 3]),
    ];
    for (live, retired, [bits, at_least_8, by_live]) in enums {
        let exhaustive = enumeration(0, 0, live, retired);
        assert_eq!(row(&exhaustive), [4, bits, 0], "{live:?} {retired:?}");
        assert_eq!(row_left(&exhaustive), [4, by_live, 0]);
        let open = enumeration(0, 1, live, retired);
        assert_eq!(row(&open), [4, at_least_8, 0], "{live:?} {retired:?}");
        assert_eq!(row_left(&open), [4, by_live.max(8), 0]);
    }
}

#[test]
fn ordinals_at_every_power_of_two() {
    for bits in 1..32 {
        let (last, next) = ((1 << bits) - 1, 1 << bits);
        let width = |live: &[u64], retired: &[u64]| row(&enumeration(0, 0, live, retired))[1];
        assert_eq!(width(&[], &[last]), bits);
        assert_eq!(width(&[], &[next]), bits + 1);
        assert_eq!(width(&[last], &[next]), bits + 1);
        assert_eq!(width(&[next], &[last]), bits + 1);
        assert_eq!(width(&[last], &[last, 0]), bits);
    }
}

#[test]
fn a_backed_enum_is_as_before() {
    let lists: [(&[u64], u64); 4] = [(&[], MOST), (&[1], 256), (&[300], 70_000), (&[9], 2)];
    for (backing, bits) in [(1, 8), (2, 16), (3, 32), (4, 64)] {
        for (live, retired) in lists {
            for non_exhaustive in [0, 1] {
                let image = enumeration(backing, non_exhaustive, live, &[retired]);
                assert_eq!(row(&image), [4, bits, 0]);
                assert_eq!(row_left(&image), [4, bits, 0]);
            }
        }
    }
}

#[test]
fn the_highest_of_live_and_retired_bits() {
    // Live and retired bits, bytes, and bytes by live ones alone.
    let all: [(&[u64], &[u64], u64, u64); 18] = [
        (&[], &[], 1, 1),
        (&[], &[0], 1, 1),
        (&[], &[7], 1, 1),
        (&[], &[8], 2, 1),
        (&[], &[15], 2, 1),
        (&[], &[16], 4, 1),
        (&[], &[31], 4, 1),
        (&[], &[32], 8, 1),
        (&[], &[63], 8, 1),
        (&[], &[MOST], 8, 1),
        (&[31], &[8], 4, 4),
        (&[3], &[7], 1, 1),
        (&[7], &[8], 2, 1),
        (&[8], &[15, 0], 2, 2),
        (&[15], &[16], 4, 2),
        (&[8, 0], &[32], 8, 2),
        (&[31], &[32], 8, 4),
        (&[32], &[7, 31], 8, 8),
    ];
    for (live, retired, bytes, by_live) in all {
        let image = flags(live, retired);
        assert_eq!(row(&image), [5, bytes, 0], "{live:?} {retired:?}");
        assert_eq!(row_left(&image), [5, by_live, 0]);
    }
}

/// An undeclared slot keeps its stored width, whatever is retired.
#[test]
fn stored_widths_stay() {
    for stored in [0, 5, 255] {
        let form = list(&[stored])[1..].to_vec();
        for retired in [0, 8, 256, MOST] {
            for backing in 0..=4 {
                for non_exhaustive in [0, 1] {
                    let before = joined(&[&[2, backing, non_exhaustive], &form]);
                    let image = image(&before, &[1], &[retired], false);
                    assert_eq!(row(&image), [4, stored, 0]);
                }
            }
            let before = joined(&[&[3], &form]);
            let image = image(&before, &[1], &[retired], false);
            assert_eq!(row(&image), [5, stored, 0]);
        }
    }
}

/// One name; a message of one field, Named(1), without limit; an enum, 256 retired.
#[test]
fn a_message_in_bytes() {
    let image = [
        1, 0, 2, 1, 0, 0, 0, 1, 0, 0, 3, 1, 0, 2, 0, 0, 0, 0, 1, 0x80, 2, 2, 0, 1,
    ];
    let [packed, aligned] = tables(&image, Edition::Two);
    assert_eq!(packed, [1, 9, 9, 4, 9, 0]);
    assert_eq!(aligned, [1, 16, 16, 4, 9, 0]);
    let [packed, aligned] = tables(&taken_out(&image), Edition::One);
    assert_eq!(packed, [1, 1, 1, 4, 1, 0]);
    assert_eq!(aligned, [1, 8, 8, 4, 1, 0]);
}

const HELD: Tree = Tree::Named(1);
const NEWTYPE: Tree = Tree::Named(2);

/// 3 live and 256 retired: 9 bits, 2 without the retired one, stored as 5.
fn nine_bits() -> Slot {
    Slot::Enum {
        backing: 0,
        non_exhaustive: 0,
        bits: 5,
        ordinals: Ordinals {
            live: vec![3],
            retired: vec![256],
        },
    }
}

/// Bit 0 live and bit 16 retired: 4 bytes, 1 without the retired one, stored as 3.
fn four_bytes() -> Slot {
    Slot::Flags {
        bytes: 3,
        bits: Ordinals {
            live: vec![0],
            retired: vec![16],
        },
    }
}

/// A user before the slot that is used, a newtype of that one, and the user again.
fn used(user: Slot, held: Slot) -> Schema {
    let newtype = Slot::Newtype {
        inner: BOOL,
        terminal: HELD,
    };
    Schema {
        names: vec![0],
        slots: vec![user.clone(), held, newtype, user],
        declarations: vec![0, 1, 2, 3],
    }
}

/// The row of both users, packed and aligned.
fn rows(schema: &Schema, edition: Edition) -> [[u64; 3]; 2] {
    tables(&schema.bytes(edition), edition).map(|table| {
        assert_eq!(table[..3], table[9..]);
        [table[0], table[1], table[2]]
    })
}

fn one(tree: Tree) -> Slot {
    message(0, vec![field(0, tree)])
}

/// A user, and its rows by all and by live ones alone.
type Due = (Slot, [[u64; 3]; 2], [[u64; 3]; 2]);

fn over_nine_bits() -> Vec<Due> {
    let exact = |packed, aligned| [[1, packed, packed], [1, aligned, aligned]];
    vec![
        (one(HELD), exact(9, 16), exact(2, 8)),
        (one(NEWTYPE), exact(9, 16), exact(2, 8)),
        (one(fixed(HELD, 3)), exact(27, 32), exact(6, 8)),
        (one(fixed(NEWTYPE, 0)), exact(0, 0), exact(0, 0)),
        (one(wrap(VEC3, HELD)), exact(27, 32), exact(6, 8)),
        (one(wrap(MAT4, NEWTYPE)), exact(144, 144), exact(32, 32)),
        (
            one(wrap(OPTIONAL, HELD)),
            [[2, 1, 10], [2, 8, 16]],
            [[2, 1, 3], [2, 8, 8]],
        ),
        (
            one(pair(RESULT, HELD, U8)),
            [[2, 9, 10], [2, 16, 16]],
            [[2, 3, 9], [2, 8, 16]],
        ),
        (
            one(fixed(wrap(OPTIONAL, HELD), 9)),
            [[3, 9, 0], [3, 16, 0]],
            [[3, 9, 0], [3, 16, 0]],
        ),
        (
            union(vec![vec![field(0, HELD)], vec![field(0, U32)]]),
            [[2, 17, 40], [2, 24, 40]],
            [[2, 10, 40], [2, 16, 40]],
        ),
        (
            message(0, vec![field(0, HELD), field(0, BOOL), field(0, NEWTYPE)]),
            exact(19, 40),
            exact(5, 24),
        ),
    ]
}

#[test]
fn sizes_are_worked_out_with_it() {
    for (user, due, by_live) in over_nine_bits() {
        let mut schema = used(user, nine_bits());
        assert_eq!(rows(&schema, Edition::Two), due, "{schema:?}");
        // In edition one the retired one is left out.
        assert_eq!(rows(&schema, Edition::One), by_live, "{schema:?}");
        let left = taken_out(&schema.bytes(Edition::Two));
        assert_eq!(left, schema.bytes(Edition::One));
        // The order of declarations does not count.
        schema.declarations.reverse();
        assert_eq!(rows(&schema, Edition::Two), due, "{schema:?}");
    }
}

/// Elements and encoded values do not have its width; with a limit elements do.
#[test]
fn sizes_are_worked_out_without_it() {
    let varint = Field {
        encoding: Encoding { deltas: 1, last: 1 },
        ..field(0, HELD)
    };
    let limited = Field {
        limit: 3,
        ..field(0, wrap(ARRAY, HELD))
    };
    let schema = used(message(0, vec![limited]), nine_bits());
    assert_eq!(rows(&schema, Edition::Two), [[2, 8, 35], [2, 8, 40]]);
    assert_eq!(rows(&schema, Edition::One), [[3, 8, 0]; 2]);
    let users = [
        (field(0, wrap(ARRAY, HELD)), [3, 8, 0]),
        (field(0, wrap(SET, HELD)), [3, 8, 0]),
        (field(0, pair(MAP, HELD, U8)), [3, 8, 0]),
        (varint, [2, 8, 80]),
    ];
    for (user, due) in users {
        let schema = used(message(0, vec![user]), nine_bits());
        assert_eq!(rows(&schema, Edition::Two), [due; 2], "{schema:?}");
        assert_eq!(rows(&schema, Edition::One), [due; 2], "{schema:?}");
    }
}

#[test]
fn sizes_are_worked_out_with_flags() {
    let users = [
        (one(HELD), [[1, 32, 32]; 2], [[1, 8, 8]; 2]),
        (
            one(wrap(OPTIONAL, NEWTYPE)),
            [[2, 1, 33], [2, 8, 40]],
            [[2, 1, 9], [2, 8, 16]],
        ),
        (one(fixed(HELD, 3)), [[1, 96, 96]; 2], [[1, 24, 24]; 2]),
        (
            union(vec![vec![], vec![field(0, HELD)]]),
            [[2, 8, 40]; 2],
            [[2, 8, 16]; 2],
        ),
    ];
    for (user, due, by_live) in users {
        let schema = used(user, four_bytes());
        assert_eq!(rows(&schema, Edition::Two), due, "{schema:?}");
        assert_eq!(rows(&schema, Edition::One), by_live, "{schema:?}");
    }
}

/// Sizes over an undeclared slot have its stored width.
#[test]
fn sizes_over_stored_widths_stay() {
    for (held, packed, aligned) in [(nine_bits(), 5, 8), (four_bytes(), 24, 24)] {
        for tree in [HELD, NEWTYPE] {
            let mut schema = used(one(tree), held.clone());
            schema.declarations = vec![3, 0];
            let due = [[1, packed, packed], [1, aligned, aligned]];
            assert_eq!(rows(&schema, Edition::Two), due);
            assert_eq!(rows(&schema, Edition::One), due);
        }
    }
}

/// The refusals of edition two and of what is left, packed and aligned.
fn refusals(user: Slot, live: u64, retired: u64) -> [[Option<(u64, u64)>; 2]; 2] {
    let held = Slot::Enum {
        backing: 0,
        non_exhaustive: 0,
        bits: 0,
        ordinals: Ordinals {
            live: vec![live],
            retired: vec![retired],
        },
    };
    let schema = used(user, held);
    [Edition::Two, Edition::One].map(|edition| {
        answered(&schema.bytes(edition), edition).map(|answer| match answer {
            Answer::Refused { number, place } => Some((number, place)),
            Answer::Accepted { .. } => None,
        })
    })
}

#[test]
fn sizes_pass_the_limit_by_retired_ones() {
    let (sum, product) = (Some((11, 0)), Some((14, 0)));
    let none = [None; 2];
    // One bit by the live one, two with the retired one.
    let many = |count| refusals(one(fixed(HELD, count)), 1, 2);
    assert_eq!(many(1 << 62), [[product; 2], none]);
    assert_eq!(many((1 << 62) - 1), [[None, sum], none]);
    assert_eq!(many((1 << 62) - 4), [none, none]);
    let many = |count| refusals(one(wrap(MAT4, fixed(NEWTYPE, count))), 1, 2);
    assert_eq!(many(1 << 58), [[product; 2], none]);
    assert_eq!(many((1 << 58) - 1), [none, none]);
    // Eight bits by the live one, nine with the retired one.
    let beside = |count| {
        let fields = vec![field(0, fixed(BOOL, count)), field(0, HELD)];
        refusals(message(0, fields), 255, 256)
    };
    assert_eq!(beside(SIZE_LIMIT - 8), [[sum; 2], [None, sum]]);
    assert_eq!(beside(SIZE_LIMIT - 9), [[None, sum], [None, sum]]);
    // The greatest number of whole bytes, less one.
    assert_eq!(beside(SIZE_LIMIT - 15), [[None, sum], none]);
    assert_eq!(beside(SIZE_LIMIT - 23), [none, none]);
}

/// What an image is counted for, in both layouts.
fn counted(image: &[u8]) -> Vec<String> {
    let [packed, aligned] = [Entry::TWO, Entry::ALIGNED_TWO].map(|entry| {
        let mut counts = RetiredCounts::default();
        counts.count(image, entry, &Whole::of(image, entry));
        let met = counts
            .held(0)
            .into_iter()
            .filter(|&(_, count, _)| count > 0);
        met.map(|(what, count, _)| {
            assert_eq!(count, 1, "{what}");
            what
        })
        .collect::<Vec<String>>()
    });
    assert_eq!(packed, aligned);
    packed
}

/// Holds images to what their slot is counted for.
fn assert_counted(slot: &str, images: &[(Vec<u8>, &[&str])]) {
    for (image, due) in images {
        let due = due.iter().map(|one| format!("retired ones, {slot}, {one}"));
        assert_eq!(counted(image), due.collect::<Vec<_>>(), "{image:02x?}");
    }
}

/// Each width that retired ones hold is counted for what it is.
#[test]
fn enums_are_counted() {
    let exhaustive = |live: &[u64], retired: &[u64]| enumeration(0, 0, live, retired);
    let open = |live: &[u64], retired: &[u64]| enumeration(0, 1, live, retired);
    assert_counted(
        "enum",
        &[
            (
                exhaustive(&[], &[256]),
                &["wider", "none live", "highest 2^k"],
            ),
            (exhaustive(&[3], &[200]), &["wider"]),
            (exhaustive(&[3], &[7]), &["wider", "highest 2^k - 1"]),
            (exhaustive(&[256], &[8]), &["not wider"]),
            (exhaustive(&[0], &[1]), &["not wider", "highest 2^k - 1"]),
            (exhaustive(&[], &[]), &[]),
            (
                open(&[3], &[200]),
                &["not wider", "non_exhaustive, still 8"],
            ),
            (open(&[3], &[300]), &["wider", "non_exhaustive, wider"]),
            (open(&[300], &[400]), &["not wider"]),
        ],
    );
}

#[test]
fn flags_are_counted() {
    assert_counted(
        "flags",
        &[
            (flags(&[7], &[8]), &["2 bytes, not 1", "highest 8"]),
            (flags(&[7], &[16]), &["4 bytes, not 1", "highest 16"]),
            (flags(&[7], &[32, 8]), &["8 bytes, not 1", "highest 32"]),
            (flags(&[15], &[31]), &["4 bytes, not 2", "highest 31"]),
            (flags(&[8], &[33]), &["8 bytes, not 2"]),
            (flags(&[31], &[32]), &["8 bytes, not 4", "highest 32"]),
            (flags(&[], &[7]), &["not wider", "none live", "highest 7"]),
            (flags(&[8], &[15]), &["not wider", "highest 15"]),
            (flags(&[15], &[15]), &["not wider"]),
            (flags(&[16], &[8]), &["not wider"]),
            (flags(&[40], &[50]), &["not wider"]),
            (flags(&[], &[]), &[]),
        ],
    );
}

/// So are those that they do not hold, rows and refusals.
#[test]
fn what_hangs_on_widths_is_counted() {
    for (backing, name) in (1..).zip(["U8", "U16", "U32", "U64"]) {
        let due = format!("retired ones that take more bits, enum of {name}");
        assert_eq!(counted(&enumeration(backing, 1, &[1], &[2])), [due]);
        assert!(counted(&enumeration(backing, 0, &[2], &[3])).is_empty());
    }
    let undeclared =
        |before: &[u8], live, retired| counted(&image(before, &[live], &[retired], false));
    let due = "retired ones that do not count, undeclared";
    assert_eq!(undeclared(&[2, 0, 0, 9], 1, 2), [format!("{due} enum")]);
    assert_eq!(undeclared(&[3, 9], 7, 8), [format!("{due} flags")]);
    assert!(undeclared(&[2, 0, 0, 9], 2, 1).is_empty());
    assert!(undeclared(&[2, 1, 0, 9], 1, 2).is_empty());
    assert!(undeclared(&[3, 9], 6, 7).is_empty());
    let last = |user: Slot| {
        let image = used(user, nine_bits()).bytes(Edition::Two);
        counted(&image).last().cloned()
    };
    let row = |owner| Some(format!("retired ones in the row of a {owner}"));
    assert_eq!(last(one(HELD)), row("message"));
    assert_eq!(last(union(vec![vec![field(0, HELD)]])), row("union"));
    let wider = "retired ones, enum, highest 2^k".to_string();
    assert_eq!(last(one(wrap(ARRAY, HELD))), Some(wider));
    // 9 bits by all and 2 by live ones: refused by a product, and by a sum.
    let refused = |number| Some(format!("accepted by live ones alone, but refused {number}"));
    assert_eq!(last(one(fixed(HELD, 1 << 60))), refused(14));
    assert_eq!(last(one(fixed(HELD, SIZE_LIMIT))), None, "by live ones too");
    let beside = vec![
        field(0, fixed(BOOL, SIZE_LIMIT - 15)),
        field(0, fixed(HELD, 2)),
    ];
    assert_eq!(last(message(0, beside)), refused(11));
}
