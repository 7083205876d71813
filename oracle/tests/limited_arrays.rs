//! Limits of elements: which fields they bear on, and what those come to. By hand, in
//! both layouts, beside the same schemas of edition one, which has no limits.

use oracle::answer::{answer, Answer, LimitedCounts, Whole, PROGRAM_PLACES};
use oracle::format::{Edition, Entry, Layout, SIZE_LIMIT};
use oracle::model::{
    declared, field, fixed, message, pair, union, wrap, Encoding, Field, Schema, Slot, Stored,
    Tree, ARRAY, BOOL, MAP, OPTIONAL, RESULT, SET, U32, U8, VEC2, VOID,
};

const STRING: Tree = Tree::Semantic(0);
const ITSELF: Tree = Tree::Named(0);
const MOST: u64 = 0xffff_ffff;

type Row = [u64; 3];
/// The number and the place of a refusal.
type Refusal = (u64, u64);

const OPEN: Row = [3, 8, 0];

fn answered(image: &[u8], edition: Edition) -> [Answer; 2] {
    Layout::ALL.map(|layout| {
        let entry = Entry { edition, layout };
        answer(image, entry, PROGRAM_PLACES).expect("a short check")
    })
}

/// The row of the first slot in each layout, or its refusal.
fn rows_of(schema: &Schema, edition: Edition) -> [Result<Row, Refusal>; 2] {
    answered(&schema.bytes(edition), edition).map(|answer| match answer {
        Answer::Accepted { sizes, .. } => Ok([sizes[0], sizes[1], sizes[2]]),
        Answer::Refused { number, place } => Err((number, place)),
    })
}

fn limited(tree: Tree, limit: u64) -> Field {
    Field {
        limit,
        ..field(0, tree)
    }
}

fn array(one: Tree) -> Tree {
    wrap(ARRAY, one)
}

fn map(key: Tree, value: Tree) -> Tree {
    pair(MAP, key, value)
}

fn bits(count: u64) -> Tree {
    fixed(BOOL, count)
}

fn optional(tree: Tree) -> Tree {
    wrap(OPTIONAL, tree)
}

/// A declared message of these fields, and other slots, which are declared too.
fn with(fields: Vec<Field>, others: &[Slot]) -> Schema {
    let mut slots = vec![message(0, fields)];
    slots.extend_from_slice(others);
    declared(vec![0], slots)
}

/// The rows of a message of one field, packed and aligned.
fn rows(field: Field) -> [Row; 2] {
    rows_of(&with(vec![field], &[]), Edition::Two).map(|row| row.expect("accepted"))
}

fn of(tree: Tree, limit: u64) -> [Row; 2] {
    rows(limited(tree, limit))
}

/// The same where both layouts agree.
fn row(tree: Tree, limit: u64) -> Row {
    let [packed, aligned] = of(tree, limit);
    assert_eq!(packed, aligned);
    packed
}

/// The refusal of a message of one field, if there is one; the same in both layouts.
fn refused(tree: Tree, limit: u64) -> Option<Refusal> {
    let [packed, aligned] = rows_of(&with(vec![limited(tree, limit)], &[]), Edition::Two);
    assert_eq!(packed.err(), aligned.err());
    packed.err()
}

/// One name; one declared message of one field, up to the field's type.
fn image(of_type: &[u8], limit: &[u8]) -> Vec<u8> {
    [&[1, 0, 1, 1, 0, 0, 0, 1, 0, 0], of_type, limit, &[1, 0]].concat()
}

#[test]
fn whole_images() {
    // Array of Void, of [Bool; 0], of its own message, of U8, of Array of U8; Set of
    // Bool; Map of Void and U8.
    let images: [(&[u8], &[u8], Row); 12] = [
        (&[5, 0, 13], &[127], [2, 8, 8]),
        (&[5, 0, 13], &[0x80, 1], [2, 8, 16]),
        (&[5, 0, 13], &[0], OPEN),
        (&[5, 6, 0, 0, 0], &[127], [2, 8, 8]),
        (&[5, 6, 0, 0, 0], &[0x80, 1], [2, 8, 16]),
        (&[5, 3, 0], &[2], OPEN),
        (&[5, 0, 1], &[3], [2, 8, 32]),
        (&[5, 0, 1], &[0], OPEN),
        (&[5, 5, 0, 1], &[3], OPEN),
        (&[7, 0, 0], &[8], [2, 8, 16]),
        (&[8, 0, 13, 0, 1], &[1], [2, 8, 16]),
        (&[0, 1], &[3], [1, 8, 8]),
    ];
    for (of_type, limit, due) in images {
        let image = image(of_type, limit);
        for answer in answered(&image, Edition::Two) {
            let Answer::Accepted { sizes, .. } = answer else {
                panic!("{answer:?}: {image:02x?}");
            };
            assert_eq!(sizes, due, "{image:02x?}");
        }
    }
}

/// Limits, and the groups of seven bits that they take.
const GROUPS: [(u64, u64); 12] = [
    (1, 1),
    (2, 1),
    (127, 1),
    (128, 2),
    (16_383, 2),
    (16_384, 3),
    (2_097_151, 3),
    (2_097_152, 4),
    ((1 << 28) - 1, 4),
    (1 << 28, 5),
    (MOST - 1, 5),
    (MOST, 5),
];

#[test]
fn largest_is_the_count_and_that_many() {
    for (limit, groups) in GROUPS {
        let count = 8 * groups;
        assert_eq!(row(array(VOID), limit), [2, 8, count]);
        assert_eq!(row(array(U8), limit), [2, 8, count + 8 * limit]);
        assert_eq!(row(wrap(SET, U32), limit), [2, 8, count + 32 * limit]);
        let both = map(U8, U32);
        assert_eq!(row(both, limit), [2, 8, count + 40 * limit]);
        assert_eq!(row(map(VOID, bits(0)), limit), [2, 8, count]);
        // The largest of an element counts, and not its smallest.
        let either = pair(RESULT, bits(7), bits(15));
        assert_eq!(row(array(either), limit), [2, 8, count + 16 * limit]);
        let maybe = map(optional(bits(7)), optional(bits(23)));
        assert_eq!(row(maybe, limit), [2, 8, count + 32 * limit]);
    }
}

#[test]
fn without_a_largest_there_is_none() {
    let elements = [
        STRING,
        Tree::Semantic(1),
        array(U8),
        array(array(VOID)),
        wrap(SET, VOID),
        map(VOID, VOID),
        fixed(optional(U8), 2),
        fixed(array(U8), 0),
        optional(STRING),
        Tree::Named(7),
    ];
    for one in elements {
        for limit in [1, 3, MOST] {
            assert_eq!(row(array(one.clone()), limit), OPEN, "{one:?}");
            assert_eq!(row(map(one.clone(), U8), limit), OPEN, "{one:?}");
            assert_eq!(row(map(U8, one.clone()), limit), OPEN, "{one:?}");
            assert_eq!(row(map(one.clone(), one.clone()), limit), OPEN);
        }
    }
}

/// Under Default, and under Delta as often as may be, down to Default.
#[test]
fn encodings_that_it_bears_under() {
    for deltas in [0, 1, 2, 31] {
        let field = |last| Field {
            encoding: Encoding { deltas, last },
            ..limited(array(U8), 3)
        };
        assert_eq!(rows(field(0)), [[2, 8, 32]; 2]);
        for last in [1, 2] {
            assert_eq!(rows(field(last)), [[2, 8, 80]; 2]);
        }
    }
}

/// A limit on anything else is read and does not count.
#[test]
fn limits_that_are_ignored() {
    let newtype = Slot::Newtype {
        inner: BOOL,
        terminal: array(U8),
    };
    for limit in [0, 1, 3, 128, MOST] {
        assert_eq!(row(U8, limit), [1, 8, 8]);
        assert_eq!(row(VOID, limit), [1, 0, 0]);
        assert_eq!(row(STRING, limit), [3, 0, 0]);
        assert_eq!(of(optional(array(U8)), limit), [[3, 1, 0], [3, 8, 0]]);
        assert_eq!(row(fixed(array(U8), 2), limit), [3, 16, 0]);
        assert_eq!(row(wrap(VEC2, map(U8, U8)), limit), [3, 16, 0]);
        let either = pair(RESULT, array(U8), wrap(SET, U8));
        assert_eq!(of(either, limit), [[3, 9, 0], [3, 16, 0]]);
        let one = std::slice::from_ref(&newtype);
        let named = with(vec![limited(Tree::Named(1), limit)], one);
        assert_eq!(rows_of(&named, Edition::Two), [Ok(OPEN); 2]);
    }
    for tree in [array(U8), wrap(SET, VOID), map(BOOL, BOOL)] {
        assert_eq!(row(tree, 0), OPEN);
    }
}

/// A newtype's terminal is no field's type, but an element may be a newtype.
#[test]
fn names_in_elements() {
    let newtype = |terminal| Slot::Newtype {
        inner: STRING,
        terminal,
    };
    let inner = |fields| message(1, fields);
    let brings = |stored| Slot::Message {
        span: (0, 0),
        stored,
        fields: vec![field(0, STRING)],
    };
    let cases = [
        (newtype(U8), [[2, 8, 32]; 2]),
        (newtype(array(U8)), [OPEN; 2]),
        (inner(vec![field(0, BOOL)]), [[2, 8, 11], [2, 8, 32]]),
        (inner(vec![limited(array(U8), 2)]), [[2, 8, 80]; 2]),
        (inner(vec![field(0, STRING)]), [OPEN; 2]),
        (union(vec![vec![field(0, U8)], vec![]]), [[2, 8, 56]; 2]),
        (inner(vec![]), [[2, 8, 8]; 2]),
        (Slot::Config, [OPEN; 2]),
    ];
    for (slot, due) in cases {
        let schema = with(vec![limited(array(Tree::Named(1)), 3)], &[slot]);
        assert_eq!(rows_of(&schema, Edition::Two), due.map(Ok), "{schema:?}");
        let mut alone = schema.clone();
        alone.declarations = vec![0];
        assert_eq!(rows_of(&alone, Edition::Two), due.map(Ok), "{schema:?}");
    }
    // Not declared, it has the size that it brings.
    for (stored, due) in [
        (Stored::Fixed(5), [2, 8, 23]),
        (Stored::Bounded(1, 4), [2, 8, 20]),
        (Stored::Bounded(9, 4), [2, 8, 20]),
        (Stored::Open(2), OPEN),
    ] {
        let mut schema = with(vec![limited(array(Tree::Named(1)), 3)], &[brings(stored)]);
        schema.declarations = vec![0];
        let [packed, aligned] = rows_of(&schema, Edition::Two);
        assert_eq!((packed, aligned), (Ok(due), Err((15, 1))));
    }
}

/// The slot that is being worked out is from 0 without largest, in elements too.
#[test]
fn elements_that_lead_back() {
    assert_eq!(row(array(ITSELF), 2), OPEN);
    assert_eq!(row(wrap(SET, optional(ITSELF)), 2), OPEN);
    assert_eq!(row(map(U8, ITSELF), 1), OPEN);
    assert_eq!(row(map(ITSELF, U8), 1), OPEN);
    let other = message(1, vec![limited(array(ITSELF), 2)]);
    let schema = with(vec![limited(array(Tree::Named(1)), 2)], &[other]);
    assert_eq!(rows_of(&schema, Edition::Two), [Ok(OPEN); 2]);
    // Fixed arrays of none are worked out and count for nothing.
    assert_eq!(row(array(fixed(ITSELF, 0)), 2), OPEN);
    // A newtype that leads back through elements is accepted.
    let newtype = Slot::Newtype {
        inner: BOOL,
        terminal: array(Tree::Named(1)),
    };
    let schema = with(vec![limited(array(Tree::Named(1)), 2)], &[newtype]);
    assert_eq!(rows_of(&schema, Edition::Two), [Ok(OPEN); 2]);
    assert_eq!(rows_of(&schema, Edition::One), [Ok(OPEN); 2]);
}

#[test]
fn fields_are_added_up() {
    let three = || limited(array(BOOL), 3);
    // On the head board the field is rounded, and its elements are not.
    assert_eq!(rows(three()), [[2, 8, 11], [2, 8, 16]]);
    let sum = with(vec![three(), field(0, BOOL), three()], &[]);
    let due = [Ok([2, 17, 23]), Ok([2, 24, 40])];
    assert_eq!(rows_of(&sum, Edition::Two), due);
    let open = with(vec![three(), limited(array(STRING), 3)], &[]);
    assert_eq!(rows_of(&open, Edition::Two), [Ok([3, 16, 0]); 2]);
    let choice = union(vec![vec![three()], vec![field(0, U32)], vec![]]);
    let choice = declared(vec![0], vec![choice]);
    assert_eq!(rows_of(&choice, Edition::Two), [Ok([2, 8, 40]); 2]);
    let choice = union(vec![vec![three(), three()]]);
    let choice = declared(vec![0], vec![choice]);
    let due = [Ok([2, 24, 30]), Ok([2, 24, 40])];
    assert_eq!(rows_of(&choice, Edition::Two), due);
    // 8..8 beside a Fixed field, and an empty array.
    let eight = with(vec![field(0, U8), limited(array(VOID), 5)], &[]);
    assert_eq!(rows_of(&eight, Edition::Two), [Ok([2, 16, 16]); 2]);
    // In edition one nothing has a largest.
    assert_eq!(rows_of(&eight, Edition::One), [Ok([3, 16, 0]); 2]);
    assert_eq!(rows_of(&sum, Edition::One)[0], Ok([3, 17, 0]));
    assert_eq!(rows_of(&choice, Edition::One), [Ok([3, 24, 0]); 2]);
}

const SUM: Option<Refusal> = Some((11, 0));
const PRODUCT: Option<Refusal> = Some((14, 0));

/// By the addition, by the product, and just not.
#[test]
fn limits_pass_the_limit_of_sizes() {
    let most = SIZE_LIMIT;
    let packed = |one: u64, limit| of_packed(array(bits(one)), limit);
    // One element, whose count has 8 bits.
    assert_eq!(packed(most - 8, 1), Ok([2, 8, most]));
    assert_eq!(packed(most - 7, 1), Err((11, 0)));
    assert_eq!(packed(most, 1), Err((11, 0)));
    assert_eq!(refused(array(bits(most + 1)), 1), PRODUCT);
    // Twice.
    assert_eq!(packed((1 << 62) - 5, 2), Ok([2, 8, most - 1]));
    assert_eq!(packed((1 << 62) - 4, 2), Err((11, 0)));
    assert_eq!(packed((1 << 62) - 1, 2), Err((11, 0)));
    assert_eq!(packed(1 << 62, 2), Err((14, 0)));
    // 17 divides 2^63 - 9, 14,737 divides 2^63 - 17.
    for (limit, count) in [(17, 8), (14_737, 16)] {
        let one = (most - count) / limit;
        assert_eq!(packed(one, limit), Ok([2, 8, most]));
        assert_eq!(packed(one + 1, limit), Err((14, 0)));
    }
    // As many as there may be: 2^31 times 2^32 - 1 is 2^63 - 2^31.
    let half = 1 << 31;
    assert_eq!(packed(half, MOST), Ok([2, 8, most + 1 - half + 40]));
    assert_eq!(packed(half + 1, MOST), Err((14, 0)));
    assert_eq!(refused(array(bits(half)), MOST), None);
    assert_eq!(refused(array(bits(most)), MOST), PRODUCT);
    let beside = |left: u64| {
        let fields = vec![limited(array(bits(half)), MOST), field(0, bits(left))];
        rows_of(&with(fields, &[]), Edition::Two)
    };
    assert_eq!(beside(half - 41)[0], Ok([2, half - 33, most]));
    assert_eq!(beside(half - 40)[0], Err((11, 0)));
    let whole = most - 7;
    assert_eq!(beside(half - 48), [Ok([2, half - 40, whole]); 2]);
    assert_eq!(beside(half - 47)[1], Err((11, 0)));
}

/// The packed row or refusal of a message of one field.
fn of_packed(tree: Tree, limit: u64) -> Result<Row, Refusal> {
    rows_of(&with(vec![limited(tree, limit)], &[]), Edition::Two)[0]
}

/// On the head board the whole field is rounded, and that is tested too.
#[test]
fn limited_fields_are_rounded_past_the_limit() {
    let whole = SIZE_LIMIT - 7;
    let both = |one: u64, limit| {
        rows_of(
            &with(vec![limited(array(bits(one)), limit)], &[]),
            Edition::Two,
        )
    };
    assert_eq!(both(whole - 8, 1), [Ok([2, 8, whole]); 2]);
    assert_eq!(both(whole - 7, 1), [Ok([2, 8, whole + 1]), Err((11, 0))]);
    assert_eq!(
        both(SIZE_LIMIT - 8, 1),
        [Ok([2, 8, SIZE_LIMIT]), Err((11, 0))]
    );
    assert_eq!(both((whole - 8) / 16, 16), [Ok([2, 8, whole]); 2]);
}

/// Key, then value, then their largest, then the product, then the addition.
#[test]
fn maps_pass_the_limit_of_sizes() {
    let half = || bits(1 << 62);
    let less = || bits((1 << 62) - 1);
    // The largest key and the largest value.
    assert_eq!(refused(map(half(), half()), 1), SUM);
    assert_eq!(refused(map(half(), half()), MOST), SUM);
    // 2^63 - 1 together: once by the addition, twice by the product.
    assert_eq!(refused(map(half(), less()), 1), SUM);
    assert_eq!(refused(map(less(), half()), 2), PRODUCT);
    assert_eq!(
        of_packed(map(half(), bits((1 << 62) - 9)), 1),
        Ok([2, 8, SIZE_LIMIT])
    );
    // The value is worked out though the key has no largest, and refused itself.
    let by_product = || fixed(U8, 1 << 60);
    let by_sum = || optional(bits(SIZE_LIMIT));
    for limit in [1, 2, MOST] {
        assert_eq!(refused(map(STRING, by_product()), limit), PRODUCT);
        assert_eq!(refused(map(STRING, by_sum()), limit), SUM);
        assert_eq!(refused(map(by_product(), STRING), limit), PRODUCT);
        assert_eq!(refused(map(by_sum(), STRING), limit), SUM);
        // The key comes first, and both come before their sum.
        assert_eq!(refused(map(by_sum(), by_product()), limit), SUM);
        assert_eq!(refused(map(by_product(), by_sum()), limit), PRODUCT);
        assert_eq!(refused(map(bits(SIZE_LIMIT), by_product()), limit), PRODUCT);
        assert_eq!(refused(array(by_product()), limit), PRODUCT);
        assert_eq!(refused(wrap(SET, by_sum()), limit), SUM);
    }
    // Not limited, nothing of it is worked out.
    for tree in [
        map(STRING, by_product()),
        array(by_sum()),
        map(half(), half()),
    ] {
        assert_eq!(row(tree.clone(), 0), OPEN);
        assert_eq!(refused(array(tree.clone()), 3), None);
        assert_eq!(refused(optional(tree), 3), None);
    }
}

/// Smallest sizes are worked out inside an element, and no further.
#[test]
fn smallest_sizes_are_dropped() {
    let open = || fixed(optional(BOOL), 1 << 62);
    assert_eq!(row(map(open(), open()), 2), OPEN);
    assert_eq!(row(array(open()), MOST), OPEN);
    assert_eq!(row(map(U8, open()), MOST), OPEN);
    assert_eq!(
        refused(array(fixed(optional(U8), SIZE_LIMIT + 1)), 1),
        PRODUCT
    );
    assert_eq!(refused(array(fixed(open(), 2)), 1), PRODUCT);
}

/// What comes first gives number and place, with limits or without.
#[test]
fn the_first_step_is_told() {
    let by_limit = || limited(array(bits(1 << 62)), 2);
    let by_sum = || field(0, optional(bits(SIZE_LIMIT)));
    let refusals = |fields: [Field; 2]| {
        let schema = with(fields.to_vec(), &[]);
        [Edition::Two, Edition::One].map(|edition| rows_of(&schema, edition)[0].err())
    };
    assert_eq!(refusals([by_limit(), by_sum()]), [PRODUCT, SUM]);
    assert_eq!(refusals([by_sum(), by_limit()]), [SUM, SUM]);
    let schema = with(vec![by_limit()], &[message(1, vec![by_sum()])]);
    let [two, one] = [Edition::Two, Edition::One].map(|edition| rows_of(&schema, edition)[0]);
    assert_eq!((two, one), (Err((14, 0)), Err((11, 1))));
}

/// What an image is counted for in the packed layout, besides what it has.
fn counted(field: Field) -> Vec<String> {
    let image = with(vec![field], &[]).bytes(Edition::Two);
    let mut counts = LimitedCounts::default();
    counts.count(&image, Entry::TWO, &Whole::of(&image, Entry::TWO));
    let met = counts.held(0).into_iter();
    let met = met.filter(|&(_, count, _)| count > 0);
    met.map(|(what, count, _)| {
        assert_eq!(count, 1, "{what}");
        what
    })
    .collect()
}

#[test]
fn limited_fields_are_counted() {
    assert_eq!(
        counted(limited(array(VOID), 127)),
        [
            "limited Array in a message",
            "limited under Default",
            "limited Array, an element of no bits",
            "limits that multiply, 127",
            "limited fields of 8..8",
            "limits in the row of a message",
        ]
    );
    let delta = Field {
        encoding: Encoding { deltas: 2, last: 0 },
        ..limited(map(STRING, U8), 128)
    };
    assert_eq!(
        counted(delta),
        [
            "limited Map in a message",
            "limited under Delta Delta",
            "limited Map, an element of no largest",
            "limited Map, with a largest value alone",
        ]
    );
    for (tree, what) in [
        (U8, "another kind"),
        (optional(array(U8)), "an Optional of one"),
        (fixed(array(U8), 2), "a fixed array of them"),
        (optional(U8), "another kind"),
    ] {
        assert_eq!(
            counted(limited(tree.clone(), 3)),
            [format!("limits ignored on {what}")]
        );
        assert!(counted(limited(tree, 0)).is_empty());
    }
    assert!(counted(limited(array(U8), 0)).is_empty());
}

#[test]
fn refusals_by_limits_are_counted() {
    let half = || bits(1 << 62);
    let large = || fixed(U8, 1 << 60);
    let counts: [(Tree, u64, &[&str]); 8] = [
        (
            array(bits(SIZE_LIMIT - 7)),
            1,
            &["after a largest of 2^63", "11, the addition"],
        ),
        (
            array(bits(SIZE_LIMIT)),
            1,
            &["after a product of 2^63 - 1", "11, the addition"],
        ),
        (
            array(half()),
            2,
            &["after a product of 2^63", "14, the product"],
        ),
        (
            array(half()),
            4,
            &["after a product past 64 bits", "14, the product"],
        ),
        (
            map(half(), half()),
            3,
            &["after a key and value of 2^63", "11, key and value"],
        ),
        (
            map(STRING, large()),
            3,
            &["inside a value whose key has no largest"],
        ),
        (map(large(), STRING), 3, &["14, inside an element"]),
        (
            array(optional(bits(SIZE_LIMIT))),
            3,
            &["11, inside an element"],
        ),
    ];
    for (tree, limit, due) in counts {
        let due = due.iter();
        let due = due.map(|what| format!("accepted without limits, but refused {what}"));
        assert_eq!(counted(limited(tree, limit)), due.collect::<Vec<_>>());
    }
    // Refused without limits too.
    assert!(counted(field(0, large())).is_empty());
}
