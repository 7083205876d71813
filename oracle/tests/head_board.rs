//! The head board: each field of a message or variant in whole bytes, and refusal
//! 15. By hand, in both editions, and by padding fields that the upstream check
//! adds up.

use oracle::answer::{answer, Answer, Places, Whole, PROGRAM_PLACES};
use oracle::format::{Edition, Entry, Layout, SIZE_LIMIT};
use oracle::generate::{batch, Families};
use oracle::import::import;
use oracle::library::{Call, REFERENCE_ALIGNED, REFERENCE_ALIGNED_TWO};
use oracle::model::{
    declared, field, fixed, generic, live, message, pair, union, wrap, Encoding, Field, Impl,
    Schema, Slot, Stored, Tree, ARRAY, BOOL, MAP, OPTIONAL, RESULT, SET, U32, U8, VEC2, VEC3, VOID,
};
use oracle::random::Random;
use oracle::workers::on_long_stack;

const STRING: Tree = Tree::Semantic(0);

fn entry(edition: Edition, layout: Layout) -> Entry {
    Entry { edition, layout }
}

/// What both editions answer, which is the same.
fn answered(schema: &Schema, layout: Layout, places: Places) -> Answer {
    let [one, two] = Edition::ALL.map(|edition| {
        let image = schema.bytes(edition);
        answer(&image, entry(edition, layout), places).expect("a short check")
    });
    assert_eq!(one, two, "{schema:?}");
    one
}

fn refused(schema: &Schema, layout: Layout) -> Option<(u64, u64)> {
    match answered(schema, layout, PROGRAM_PLACES) {
        Answer::Refused { number, place } => Some((number, place)),
        Answer::Accepted { .. } => None,
    }
}

/// The row of the first slot, packed and aligned.
fn rows(slots: Vec<Slot>) -> [[u64; 3]; 2] {
    let schema = declared(vec![0; 3], slots);
    Layout::ALL.map(|layout| match answered(&schema, layout, PROGRAM_PLACES) {
        Answer::Accepted { sizes, .. } => [sizes[0], sizes[1], sizes[2]],
        refused => panic!("{refused:?}"),
    })
}

/// Those of a message of one field.
fn of(tree: Tree) -> [[u64; 3]; 2] {
    rows(vec![message(0, vec![field(0, tree)])])
}

fn fields(trees: &[Tree]) -> Vec<Field> {
    trees.iter().map(|tree| field(0, tree.clone())).collect()
}

fn optional(tree: Tree) -> Tree {
    wrap(OPTIONAL, tree)
}

fn bits(count: u64) -> Tree {
    fixed(BOOL, count)
}

#[test]
fn both_ends_are_rounded_and_none_becomes_fixed() {
    assert_eq!(of(optional(BOOL)), [[2, 1, 2], [2, 8, 8]]);
    assert_eq!(of(optional(bits(3))), [[2, 1, 4], [2, 8, 8]]);
    assert_eq!(of(optional(U32)), [[2, 1, 33], [2, 8, 40]]);
    assert_eq!(of(pair(RESULT, U8, U32)), [[2, 9, 33], [2, 16, 40]]);
    assert_eq!(of(fixed(optional(BOOL), 3)), [[3, 3, 0], [3, 8, 0]]);
    assert_eq!(of(wrap(VEC3, optional(BOOL))), [[2, 3, 6], [2, 8, 8]]);
    assert_eq!(of(STRING), [[3, 0, 0]; 2]);
    for tree in [wrap(ARRAY, BOOL), wrap(SET, BOOL), pair(MAP, BOOL, BOOL)] {
        assert_eq!(of(tree), [[3, 8, 0]; 2]);
    }
    assert_eq!(of(VOID), [[1, 0, 0]; 2]);
    assert_eq!(of(BOOL), [[1, 1, 1], [1, 8, 8]]);
}

/// Fixed sizes stay Fixed, whatever is over whole bytes.
#[test]
fn fixed_sizes_are_rounded() {
    for count in 0..=255u64 {
        let up = count.next_multiple_of(8);
        let due = [[1, count, count], [1, up, up]];
        assert_eq!(of(Tree::SubByte(0, count)), due);
        assert_eq!(of(bits(count)), due);
        assert_eq!(of(Tree::Bits(vec![0; count as usize])), due);
    }
}

#[test]
fn widths_of_enums_are_rounded_where_they_are_used() {
    let enumeration = Slot::Enum {
        backing: 0,
        non_exhaustive: 0,
        bits: 77,
        ordinals: live(vec![256]),
    };
    let named = message(0, fields(&[Tree::Named(1)]));
    let mut schema = declared(vec![0], vec![named, enumeration]);
    let sizes = |schema: &Schema| match answered(schema, Layout::Aligned, PROGRAM_PLACES) {
        Answer::Accepted { sizes, .. } => sizes,
        refused => panic!("{refused:?}"),
    };
    // The row of the enum itself is in bits.
    assert_eq!(sizes(&schema), [1, 16, 16, 4, 9, 0]);
    schema.declarations = vec![0];
    assert_eq!(sizes(&schema), [1, 80, 80, 4, 77, 0]);
}

#[test]
fn encoded_fields_have_whole_bytes() {
    for (last, number, most) in [(1, 2, 24), (1, 3, 40), (2, 6, 24), (2, 8, 80), (1, 0, 80)] {
        for deltas in [0, 2] {
            let encoded = Field {
                encoding: Encoding { deltas, last },
                ..field(0, Tree::Primitive(number))
            };
            let due = [[2, 8, most]; 2];
            assert_eq!(rows(vec![message(0, vec![encoded])]), due);
        }
    }
    // Delta down to Default leaves the type as it is.
    let delta = Field {
        encoding: Encoding { deltas: 1, last: 0 },
        ..field(0, BOOL)
    };
    let due = [[1, 1, 1], [1, 8, 8]];
    assert_eq!(rows(vec![message(0, vec![delta])]), due);
}

#[test]
fn each_field_is_rounded_before_it_is_added() {
    let three = [BOOL, BOOL, BOOL];
    let due = [[1, 3, 3], [1, 24, 24]];
    assert_eq!(rows(vec![message(0, fields(&three))]), due);
    let mixed = [BOOL, optional(bits(8)), Tree::SubByte(0, 9)];
    let due = [[2, 11, 19], [2, 32, 40]];
    assert_eq!(rows(vec![message(0, fields(&mixed))]), due);
    assert_eq!(rows(vec![message(0, vec![])]), [[1, 0, 0]; 2]);
}

#[test]
fn parts_of_a_type_are_not_rounded() {
    assert_eq!(of(wrap(VEC3, BOOL)), [[1, 3, 3], [1, 8, 8]]);
    assert_eq!(
        of(fixed(Tree::SubByte(0, 3), 5)),
        [[1, 15, 15], [1, 16, 16]]
    );
    assert_eq!(of(optional(optional(BOOL))), [[2, 1, 3], [2, 8, 8]]);
    assert_eq!(of(pair(RESULT, BOOL, bits(7))), [[2, 2, 8], [2, 8, 8]]);
    // A newtype is its terminal: no field, and not rounded.
    let newtype = Slot::Newtype {
        inner: U32,
        terminal: Tree::SubByte(0, 3),
    };
    let nine = message(0, fields(&[fixed(Tree::Named(1), 3)]));
    let due = [[1, 9, 9], [1, 16, 16]];
    assert_eq!(rows(vec![nine, newtype]), due);
}

#[test]
fn fields_of_messages_and_unions_inside_are_rounded() {
    let over = |tree: Tree, inner: Slot| rows(vec![message(0, fields(&[tree])), inner]);
    let one = || message(1, fields(&[BOOL]));
    let named = || Tree::Named(1);
    assert_eq!(over(named(), one()), [[1, 1, 1], [1, 8, 8]]);
    assert_eq!(over(fixed(named(), 3), one()), [[1, 3, 3], [1, 24, 24]]);
    assert_eq!(over(optional(named()), one()), [[2, 1, 2], [2, 8, 16]]);
    assert_eq!(over(wrap(ARRAY, named()), one()), [[3, 8, 0]; 2]);
    let two = || union(vec![fields(&[BOOL]), fields(&[BOOL, Tree::SubByte(0, 9)])]);
    assert_eq!(over(named(), two()), [[2, 9, 18], [2, 16, 32]]);
    assert_eq!(over(wrap(VEC2, named()), two()), [[2, 18, 36], [2, 32, 64]]);
    assert_eq!(over(fixed(named(), 2), two()), [[3, 18, 0], [3, 32, 0]]);
}

/// The union's 8 is added to what was rounded, once.
#[test]
fn variants_are_rounded_and_the_tag_is_not() {
    let of = |variants: Vec<Vec<Tree>>| {
        let variants = variants.iter().map(|trees| fields(trees));
        rows(vec![union(variants.collect())])
    };
    assert_eq!(of(vec![]), [[2, 8, 8]; 2]);
    assert_eq!(of(vec![vec![]]), [[2, 8, 8]; 2]);
    assert_eq!(of(vec![vec![BOOL]]), [[2, 9, 9], [2, 16, 16]]);
    assert_eq!(of(vec![vec![U8], vec![U32]]), [[2, 16, 40]; 2]);
    let apart = vec![vec![BOOL, BOOL], vec![optional(U32)], vec![STRING, BOOL]];
    assert_eq!(of(apart), [[3, 9, 0], [3, 16, 0]]);
}

/// A later turn uses what an earlier one stored, which is rounded already.
#[test]
fn turns_store_rounded_sizes() {
    let slots = vec![
        message(0, fields(&[fixed(Tree::Named(1), 2), BOOL])),
        message(1, fields(&[BOOL, BOOL])),
    ];
    for declarations in [vec![0, 1], vec![1, 0], vec![0, 1, 0], vec![0]] {
        let schema = Schema {
            names: vec![0],
            slots: slots.clone(),
            declarations,
        };
        let Answer::Accepted { sizes, .. } = answered(&schema, Layout::Aligned, PROGRAM_PLACES)
        else {
            panic!("{schema:?}");
        };
        assert_eq!(sizes[..3], [1, 40, 40]);
    }
    // The slot being worked out is from 0, without largest.
    let itself = message(0, fields(&[Tree::Named(0), BOOL]));
    assert_eq!(rows(vec![itself]), [[3, 1, 0], [3, 8, 0]]);
}

/// More of them, with what is around them, in `tests/boundaries.rs`.
#[test]
fn rounding_counts_as_a_sum() {
    let one = |trees: &[Tree]| declared(vec![0], vec![message(0, fields(trees))]);
    let both = |schema: &Schema| Layout::ALL.map(|layout| refused(schema, layout));
    let sum = Some((11, 0));
    let product = Some((14, 0));
    for count in SIZE_LIMIT - 6..=SIZE_LIMIT {
        assert_eq!(both(&one(&[bits(count)])), [None, sum], "{count}");
    }
    let whole = SIZE_LIMIT - 7;
    assert_eq!(of(bits(whole)), [[1, whole, whole]; 2]);
    // Its own numbers are tested, though the total has no largest.
    let behind = one(&[STRING, optional(bits(SIZE_LIMIT - 1))]);
    assert_eq!(both(&behind), [None, sum]);
    let half = bits((1 << 62) - 1);
    assert_eq!(both(&one(&[half.clone(), half])), [None, sum]);
    let many = |count| {
        let many = message(0, fields(&[fixed(Tree::Named(1), count)]));
        vec![many, message(1, fields(&[BOOL]))]
    };
    let due = 1 << 60;
    let schema = declared(vec![0], many(due));
    assert_eq!(both(&schema), [None, product]);
    let most = due - 1;
    assert_eq!(rows(many(most)), [[1, most, most], [1, 8 * most, 8 * most]]);
}

/// A message or union that brings this size, and a field.
fn bringing(stored: Stored, is_union: bool) -> Slot {
    match is_union {
        true => Slot::Union {
            stored,
            variants: vec![fields(&[BOOL])],
        },
        false => Slot::Message {
            span: (0, 0),
            stored,
            fields: fields(&[BOOL]),
        },
    }
}

#[test]
fn a_size_that_is_brought_is_refused_wherever_it_is() {
    let plain = || message(0, fields(&[BOOL]));
    for stored in [
        Stored::Fixed(0),
        Stored::Fixed(8),
        Stored::Open(0),
        Stored::Bounded(0, 0),
        Stored::Bounded(9, 3),
    ] {
        for is_union in [false, true] {
            let brings = || bringing(stored.clone(), is_union);
            let naming = message(0, fields(&[Tree::Named(1)]));
            for (slots, declarations, place) in [
                (vec![brings()], vec![0], 0),
                (vec![brings()], vec![], 0),
                (vec![plain(), brings()], vec![0], 1),
                (vec![naming.clone(), brings()], vec![0], 1),
                (
                    vec![Slot::Empty, plain(), brings(), brings()],
                    vec![3, 1],
                    2,
                ),
                (vec![plain(), brings(), brings()], vec![2, 0, 2], 1),
            ] {
                let schema = Schema {
                    names: vec![0],
                    slots,
                    declarations,
                };
                assert_eq!(refused(&schema, Layout::Aligned), Some((15, place)));
                assert_eq!(refused(&schema, Layout::Packed), None);
            }
        }
    }
}

/// Widths of enums and flags are no sizes of messages or unions.
#[test]
fn widths_that_are_brought_are_not_refused() {
    let slots = vec![
        Slot::Enum {
            backing: 0,
            non_exhaustive: 0,
            bits: 5,
            ordinals: live(vec![]),
        },
        Slot::Flags {
            bytes: 3,
            bits: live(vec![]),
        },
    ];
    let schema = Schema {
        names: vec![],
        slots,
        declarations: vec![],
    };
    assert_eq!(refused(&schema, Layout::Aligned), None);
}

/// Sizes of one slot and one finding too few.
const SHORT: [Places; 3] = [
    Places {
        sizes: 2,
        findings: 6_000,
    },
    Places {
        sizes: 0,
        findings: 0,
    },
    Places {
        sizes: 1_536,
        findings: 5,
    },
];

#[test]
fn fifteen_comes_before_10_11_14_and_12() {
    let with = |tree: Tree| {
        let mut slots = vec![
            message(0, fields(&[tree])),
            bringing(Stored::Fixed(1), false),
        ];
        slots.swap(0, 1);
        declared(vec![0], slots)
    };
    let itself = with(Tree::Named(1));
    let by_sum = with(optional(bits(SIZE_LIMIT)));
    let by_product = with(fixed(U8, 1 << 60));
    for schema in [&itself, &by_sum, &by_product] {
        for places in SHORT.into_iter().chain([PROGRAM_PLACES]) {
            let due = Answer::Refused {
                number: 15,
                place: 0,
            };
            assert_eq!(answered(schema, Layout::Aligned, places), due);
        }
    }
    let packed = |schema, places| match answered(schema, Layout::Packed, places) {
        Answer::Refused { number, .. } => number,
        Answer::Accepted { .. } => 0,
    };
    assert_eq!(SHORT.map(|places| packed(&itself, places)), [10, 10, 12]);
    assert_eq!(packed(&by_sum, PROGRAM_PLACES), 11);
    assert_eq!(packed(&by_product, PROGRAM_PLACES), 14);
}

#[test]
fn fifteen_comes_after_1_to_9() {
    let brings = || bringing(Stored::Fixed(1), false);
    let newtype = Slot::Newtype {
        inner: BOOL,
        terminal: Tree::Named(1),
    };
    let alias = Slot::Alias {
        parameters: vec![],
        target: generic(0, BOOL),
    };
    let name_of_none = declared(vec![2], vec![brings(), Slot::Empty]);
    let newtype_loop = declared(vec![0], vec![brings(), newtype]);
    let alias_loop = declared(vec![2], vec![brings(), alias]);
    for (schema, due) in [
        (name_of_none, (7, 0)),
        (newtype_loop, (8, 1)),
        (alias_loop, (9, 1)),
    ] {
        assert_eq!(refused(&schema, Layout::Aligned), Some(due));
    }
    for edition in Edition::ALL {
        let mut image = declared(vec![0], vec![brings()]).bytes(edition);
        let answered = |image: &[u8]| {
            let entry = entry(edition, Layout::Aligned);
            match answer(image, entry, PROGRAM_PLACES) {
                Ok(Answer::Refused { number, .. }) => number,
                other => panic!("{other:?}"),
            }
        };
        assert_eq!(answered(&image), 15);
        assert_eq!(answered(&image[..image.len() - 1]), 2);
        image.push(0);
        assert_eq!(answered(&image), 6);
    }
}

/// Reading knows nothing of layouts.
#[test]
fn images_that_bring_sizes_are_read() {
    let schema = declared(vec![0], vec![bringing(Stored::Fixed(1), true)]);
    for library in [REFERENCE_ALIGNED, REFERENCE_ALIGNED_TWO] {
        let image = schema.bytes(library.entry.edition);
        let reply = library.reply(&image, Call::Read { starts: 2 });
        assert_eq!((reply.verdict.number, reply.verdict.value), (0, 1));
        assert_eq!(reply.table, [3, 0]);
    }
}

#[test]
fn findings_are_those_of_the_packed_layout() {
    let impl_slot = Slot::Impl(Impl {
        span: (4, 5),
        trait_number: 2,
        trait_span: None,
        arguments: vec![],
        target: Tree::Named(0),
    });
    let required = Slot::Trait {
        parameters: vec![],
        fields: vec![(0, U8), (1, BOOL)],
    };
    let itself = message(0, vec![field(1, BOOL), field(2, Tree::Named(0))]);
    let schema = declared(vec![0; 3], vec![itself, required, impl_slot]);
    let found = Layout::ALL.map(|layout| match answered(&schema, layout, PROGRAM_PLACES) {
        Answer::Accepted {
            count, findings, ..
        } => (count, findings),
        refused => panic!("{refused:?}"),
    });
    assert_eq!(found[0].0, 2);
    assert_eq!(found[0], found[1]);
}

/// Takes an image and its answers, packed and aligned.
type Visit<'a> = &'a mut (dyn FnMut(&[u8], Edition, [Answer; 2]) + Send);

/// Visits generated images that bring no size, with all the places they take.
fn each_pair(visit: Visit<'_>) {
    const PLACES: Places = Places {
        sizes: u64::MAX,
        findings: u64::MAX,
    };
    on_long_stack(|| {
        for entry in [Entry::ALIGNED, Entry::ALIGNED_TWO] {
            for number in 0..6_000 {
                batch(41, number, Families::All, entry, |_, image| {
                    let aligned = Whole::of(image, entry).answer(PLACES);
                    let packed = Whole::of(image, entry.edition).answer(PLACES);
                    match (packed, aligned) {
                        (_, Ok(Answer::Refused { number: 15, .. })) => {}
                        (Ok(packed), Ok(aligned)) => visit(image, entry.edition, [packed, aligned]),
                        _ => {}
                    }
                });
            }
        }
    });
}

/// Rows keep their kinds; those of messages and unions have whole bytes, and no
/// fewer bits.
fn assert_rounded(packed: &[u64], aligned: &[u64]) {
    assert_eq!(packed.len(), aligned.len());
    for (packed, aligned) in packed.chunks(3).zip(aligned.chunks(3)) {
        assert_eq!(packed[0], aligned[0], "the kind of a row");
        if !matches!(packed[0], 1..=3) {
            assert_eq!(packed, aligned);
        }
        for column in [1, 2].into_iter().filter(|_| packed[0] <= 3) {
            assert!(aligned[column] >= packed[column] && aligned[column] % 8 == 0);
        }
    }
}

/// What holds of both layouts where no size is brought.
#[test]
fn layouts_go_together() {
    let (mut accepted, mut both_refused, mut aligned_alone) = (0, 0, 0);
    each_pair(&mut |image, edition, [packed, aligned]| match packed {
        Answer::Refused { number, place } if number < 10 => {
            assert_eq!(aligned, Answer::Refused { number, place });
        }
        Answer::Refused { place, .. } => {
            both_refused += 1;
            let Answer::Refused { place: other, .. } = aligned else {
                panic!("refused packed alone: {image:02x?}");
            };
            let turns = turns_of(image, edition, [place, other]);
            assert!(turns.is_none_or(|[packed, aligned]| aligned <= packed));
        }
        Answer::Accepted {
            sizes, findings, ..
        } => match aligned {
            Answer::Refused { number, .. } => {
                aligned_alone += 1;
                assert!(matches!(number, 11 | 14), "{number}");
            }
            Answer::Accepted {
                sizes: rounded,
                findings: same,
                ..
            } => {
                accepted += 1;
                assert_eq!(findings, same);
                assert_rounded(&sizes, &rounded);
            }
        },
    });
    assert!(accepted > 4_000, "{accepted}");
    assert!(both_refused > 300, "{both_refused}");
    assert!(aligned_alone > 200, "{aligned_alone}");
}

/// The turns of two slots, if each has but one.
fn turns_of(image: &[u8], edition: Edition, slots: [u64; 2]) -> Option<[usize; 2]> {
    let schema = import(image, edition).expect("accepted").schema;
    let turns = slots.map(|slot| {
        let declared = schema.declarations.iter().enumerate();
        let turns = declared.filter(|(_, id)| u64::from(id.index()) == slot);
        turns.map(|(turn, _)| turn).collect::<Vec<usize>>()
    });
    match [&turns[0][..], &turns[1]] {
        [[one], [other]] => Some([*one, *other]),
        _ => None,
    }
}

/// Types that one field of fixed length behind them brings to whole bytes, at
/// both ends alike, and how long that field is. Names are of slots before.
fn padded(random: &mut Random, below: u64) -> (Tree, u64) {
    let count = random.below(30);
    let pad = count.next_multiple_of(8) - count;
    match random.below(9) {
        0 => (Tree::SubByte(0, count), pad),
        1 => (bits(count), pad),
        2 => (Tree::Bits(vec![0; count as usize]), pad),
        3 => (fixed(optional(U8), count), pad),
        4 => (optional(random.pick(&[U8, U32, Tree::Semantic(2)])), 7),
        5 => (pair(RESULT, U8, random.pick(&[U32, VOID])), 7),
        6 if below > 0 => (optional(Tree::Named(random.below(below))), 7),
        7 if below > 0 => (fixed(Tree::Named(random.below(below)), count), 0),
        _ => (random.pick(&[STRING, VOID, U32, wrap(ARRAY, BOOL)]), 0),
    }
}

/// A list of fields, and the same with the padding between them.
fn list(random: &mut Random, below: u64) -> [Vec<Field>; 2] {
    let mut lists = [vec![], vec![]];
    for _ in 0..random.below(4) {
        let (tree, pad) = padded(random, below);
        for list in &mut lists {
            list.push(field(0, tree.clone()));
        }
        lists[1].push(field(0, Tree::SubByte(0, pad)));
    }
    lists
}

/// Padding fields, which the upstream check adds up packed, come to the same.
#[test]
fn padding_comes_to_the_same() {
    let mut random = Random::new(17, 0);
    let mut rounded = 0;
    for _ in 0..4_000 {
        let mut slots = [vec![], vec![]];
        for slot in 0..1 + random.below(4) {
            let lists = [(); 2].map(|()| list(&mut random, slot));
            let is_union = random.once_in(3);
            for (which, slots) in slots.iter_mut().enumerate() {
                let fields = lists.each_ref().map(|pair| pair[which].clone());
                slots.push(match is_union {
                    true => union(fields.to_vec()),
                    false => message(slot, fields[0].clone()),
                });
            }
        }
        let [plain, padded] = slots.map(|slots| declared(vec![0], slots));
        let aligned = answered(&plain, Layout::Aligned, PROGRAM_PLACES);
        assert_eq!(aligned, answered(&padded, Layout::Packed, PROGRAM_PLACES));
        let packed = answered(&plain, Layout::Packed, PROGRAM_PLACES);
        rounded += u64::from(packed != aligned);
    }
    assert!(rounded > 2_000, "{rounded}");
}
