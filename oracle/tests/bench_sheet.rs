//! The lines of document 01's bench sheet.

use oracle::answer::{answer, Answer, PROGRAM_PLACES};
use oracle::format::{Edition, SIZE_LIMIT};
use oracle::model::{
    declared, field, fixed, live, message, pair, union, wrap, Schema, Slot, Tree, BOOL, OPTIONAL,
    RESULT, U32, U8, VEC3,
};

fn answered(schema: &Schema) -> Answer {
    answer(&schema.bytes(Edition::One), Edition::One, PROGRAM_PLACES).expect("a short check")
}

const SUM_TOO_LARGE: Answer = Answer::Refused {
    number: 11,
    place: 0,
};

const PRODUCT_TOO_LARGE: Answer = Answer::Refused {
    number: 14,
    place: 0,
};

/// The row of slot 0 and the findings.
fn accepted(schema: &Schema) -> ([u64; 3], Vec<u32>) {
    match answered(schema) {
        Answer::Accepted {
            sizes, findings, ..
        } => ([sizes[0], sizes[1], sizes[2]], findings),
        refused => panic!("{refused:?}"),
    }
}

fn row(slot: Slot) -> [u64; 3] {
    accepted(&declared(vec![0], vec![slot])).0
}

fn enum_row(non_exhaustive: u64, ordinals: &[u64]) -> [u64; 3] {
    row(Slot::Enum {
        backing: 0,
        non_exhaustive,
        bits: 77,
        ordinals: live(ordinals.to_vec()),
    })
}

fn flags_row(bits: &[u64]) -> [u64; 3] {
    row(Slot::Flags {
        bytes: 77,
        bits: live(bits.to_vec()),
    })
}

/// The size of a message of one field is that of the field's type.
fn type_row(tree: Tree) -> [u64; 3] {
    row(message(0, vec![field(0, tree)]))
}

#[test]
fn enum_widths() {
    assert_eq!(enum_row(1, &[255]), [4, 8, 0]);
    assert_eq!(enum_row(1, &[256]), [4, 9, 0]);
    assert_eq!(enum_row(0, &[]), [4, 1, 0]);
}

#[test]
fn flags_widths() {
    assert_eq!(flags_row(&[7]), [5, 1, 0]);
    assert_eq!(flags_row(&[8]), [5, 2, 0]);
    assert_eq!(flags_row(&[31]), [5, 4, 0]);
    assert_eq!(flags_row(&[32]), [5, 8, 0]);
    assert_eq!(flags_row(&[]), [5, 1, 0]);
}

#[test]
fn sizes_of_types() {
    assert_eq!(type_row(wrap(OPTIONAL, U32)), [2, 1, 33]);
    assert_eq!(type_row(pair(RESULT, U8, U32)), [2, 9, 33]);
    assert_eq!(type_row(fixed(wrap(OPTIONAL, BOOL), 3)), [3, 3, 0]);
    assert_eq!(type_row(wrap(VEC3, wrap(OPTIONAL, BOOL))), [2, 3, 6]);
}

#[test]
fn size_of_a_union() {
    let variants = vec![vec![field(0, U8)], vec![field(0, U32)]];
    assert_eq!(row(union(variants)), [2, 16, 40]);
    assert_eq!(row(union(vec![])), [2, 8, 8]);
    assert_eq!(row(union(vec![vec![]])), [2, 8, 8]);
    assert_eq!(row(union(vec![vec![], vec![field(0, U8)]])), [2, 8, 16]);
}

/// Request W5: the greatest smallest there is, and variants as long as the
/// mark or one bit above the limit, alone and beside an empty one.
#[test]
fn no_union_keeps_the_mark() {
    let bools = |bits| vec![field(0, fixed(BOOL, bits))];
    let most = SIZE_LIMIT - 8;
    assert_eq!(row(union(vec![bools(most)])), [2, SIZE_LIMIT, SIZE_LIMIT]);
    for (bits, refused) in [
        (u64::MAX, PRODUCT_TOO_LARGE),
        (SIZE_LIMIT + 1, PRODUCT_TOO_LARGE),
        (SIZE_LIMIT, SUM_TOO_LARGE),
    ] {
        let long = || bools(bits);
        for variants in [
            vec![long()],
            vec![long(), vec![]],
            vec![vec![], long()],
            vec![long(), long()],
        ] {
            let schema = declared(vec![0], vec![union(variants)]);
            assert_eq!(answered(&schema), refused, "{bits}");
        }
    }
}

#[test]
fn endless_message() {
    let schema = declared(vec![0], vec![message(0, vec![field(0, Tree::Named(0))])]);
    assert_eq!(accepted(&schema).1, [1, 0, 100, 10, 0, 0]);
}

#[test]
fn optional_first_hides_the_endless() {
    let holding = |slot, other| {
        let name = Tree::Named(other);
        let fields = vec![field(0, wrap(OPTIONAL, name.clone())), field(0, name)];
        message(slot, fields)
    };
    let schema = declared(vec![0], vec![holding(0, 1), holding(1, 0)]);
    assert!(accepted(&schema).1.is_empty());
}

#[test]
fn limit_of_sizes() {
    let array = |size| message(0, vec![field(0, fixed(U8, size))]);
    let schema = |size| declared(vec![0], vec![array(size)]);
    let most = (1 << 60) - 1;
    assert_eq!(accepted(&schema(most)).0, [1, 8 * most, 8 * most]);
    // Request W2: 14, and no longer 11.
    assert_eq!(answered(&schema(1 << 60)), PRODUCT_TOO_LARGE);
}
