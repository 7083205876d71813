//! Sizes that pass the limit on the head board alone, or all but: by rounding,
//! by a sum of what was rounded, or by a product of it. Each with the answer that
//! the documents give in both layouts.

use std::sync::OnceLock;

use super::first::{by_product, by_sum, fields, optional, result, variants, vec2, PRODUCT, SUM};
use super::limits::FACTORS;
use crate::format::SIZE_LIMIT;
use crate::model::{
    declared, field, fixed, message, union, wrap, Field, Schema, Slot, Tree, ARRAY, BOOL, MAT4, U8,
    VOID,
};
use crate::random::Random;

/// A schema, and its refusal in each layout if it is not accepted there.
#[derive(Debug)]
pub struct Rounded {
    pub what: String,
    pub schema: Schema,
    pub packed: Option<(u64, u64)>,
    pub aligned: Option<(u64, u64)>,
}

/// The number of a refusal, if it is one, packed and aligned.
type Numbers = (Option<u64>, Option<u64>);

const NEITHER: Numbers = (None, None);
const ROUNDED: Numbers = (None, Some(SUM));
const MULTIPLIED: Numbers = (None, Some(PRODUCT));
const BOTH_SUM: Numbers = (Some(SUM), Some(SUM));
const BOTH_PRODUCT: Numbers = (Some(PRODUCT), Some(PRODUCT));

/// The greatest number of whole bytes that is no more than the limit, in bits.
const WHOLE: u64 = SIZE_LIMIT - 7;
const HALF: u64 = 1 << 62;

const STRING: Tree = Tree::Semantic(0);
const INNER: Tree = Tree::Named(1);

fn bits(count: u64) -> Tree {
    fixed(BOOL, count)
}

/// All of them, made once.
pub fn all_rounded() -> &'static [Rounded] {
    static ALL: OnceLock<Vec<Rounded>> = OnceLock::new();
    ALL.get_or_init(|| {
        let mut all = Vec::new();
        for (trees, numbers) in rounded_fields().into_iter().chain(added_fields()) {
            let what = format!("{trees:?}");
            around(&mut all, &what, message(0, fields(trees)), numbers);
        }
        for (lists, numbers) in variant_lists() {
            let what = format!("{lists:?}");
            around(&mut all, &what, variants(lists), numbers);
        }
        for (inner, trees, numbers) in nested() {
            let what = format!("{trees:?} over {inner:?}");
            let slots = vec![message(0, fields(trees)), inner];
            add(&mut all, what, slots, vec![0], placed(numbers, 0, 0));
        }
        turns(&mut all);
        all
    })
}

/// Fields one of which is rounded past the limit, or just not.
fn rounded_fields() -> Vec<(Vec<Tree>, Numbers)> {
    let most = || optional(bits(SIZE_LIMIT - 1));
    vec![
        (vec![bits(WHOLE)], NEITHER),
        (vec![bits(WHOLE + 1)], ROUNDED),
        (vec![bits(SIZE_LIMIT)], ROUNDED),
        (vec![VOID, bits(WHOLE)], NEITHER),
        (vec![STRING, bits(WHOLE)], NEITHER),
        (vec![STRING, bits(WHOLE + 1)], ROUNDED),
        (vec![bits(WHOLE + 1), STRING], ROUNDED),
        (vec![STRING, most()], ROUNDED),
        (vec![most(), STRING], ROUNDED),
        (vec![wrap(ARRAY, U8), optional(bits(WHOLE))], ROUNDED),
        (vec![STRING, optional(bits(WHOLE - 1))], NEITHER),
        (vec![optional(bits(WHOLE - 1))], NEITHER),
        (vec![optional(bits(WHOLE))], ROUNDED),
        (vec![result(bits(WHOLE - 1), BOOL)], NEITHER),
        (vec![result(bits(WHOLE), BOOL)], ROUNDED),
        (vec![result(VOID, bits(WHOLE))], ROUNDED),
        (vec![result(STRING, bits(WHOLE))], NEITHER),
        (vec![fixed(optional(U8), WHOLE)], NEITHER),
        (vec![fixed(optional(U8), WHOLE + 1)], ROUNDED),
        (vec![vec2(bits(HALF - 4))], NEITHER),
        (vec![vec2(bits(HALF - 3))], ROUNDED),
        (vec![vec2(bits(HALF))], BOTH_PRODUCT),
        (vec![vec2(optional(bits(HALF - 5)))], NEITHER),
        (vec![vec2(optional(bits(HALF - 4)))], ROUNDED),
        // Rounded before the product that packed is the first to pass it.
        (
            vec![bits(WHOLE + 1), by_product()],
            (Some(PRODUCT), Some(SUM)),
        ),
        (vec![by_product(), bits(WHOLE + 1)], BOTH_PRODUCT),
        (vec![by_sum(), bits(WHOLE + 1)], BOTH_SUM),
    ]
}

/// Fields that add up to more once they are rounded; parts are not rounded.
fn added_fields() -> Vec<(Vec<Tree>, Numbers)> {
    let third = Tree::SubByte(0, 3);
    vec![
        (vec![bits(HALF - 1), bits(HALF - 1)], ROUNDED),
        (vec![bits(HALF), bits(HALF - 8)], NEITHER),
        (vec![bits(HALF), bits(HALF - 7)], ROUNDED),
        (vec![BOOL, bits(WHOLE - 8)], NEITHER),
        (vec![BOOL, BOOL, bits(WHOLE - 8)], ROUNDED),
        (vec![bits(WHOLE), BOOL], ROUNDED),
        (vec![bits(WHOLE), U8], BOTH_SUM),
        (vec![bits(WHOLE), VOID], NEITHER),
        (vec![fixed(third.clone(), 1 << 61)], NEITHER),
        (vec![fixed(vec2(third), 1 << 60)], NEITHER),
        (vec![fixed(bits(1), 1 << 62)], NEITHER),
        (vec![fixed(optional(BOOL), 1 << 62)], NEITHER),
        (vec![vec2(result(bits(HALF - 9), VOID))], NEITHER),
    ]
}

/// Variants; the union's 8 is not rounded and is added last.
fn variant_lists() -> Vec<(Vec<Vec<Tree>>, Numbers)> {
    let most = || optional(bits(SIZE_LIMIT - 1));
    vec![
        (vec![vec![bits(WHOLE - 8)]], NEITHER),
        (vec![vec![bits(WHOLE - 7)]], ROUNDED),
        (vec![vec![bits(SIZE_LIMIT - 8)]], ROUNDED),
        (vec![vec![bits(SIZE_LIMIT - 7)]], BOTH_SUM),
        (vec![vec![], vec![bits(WHOLE - 7)]], ROUNDED),
        (vec![vec![STRING, most()], vec![]], ROUNDED),
        (vec![vec![], vec![most(), STRING]], ROUNDED),
        (vec![vec![STRING, bits(WHOLE + 1)], vec![]], ROUNDED),
        (vec![vec![STRING], vec![bits(WHOLE)]], NEITHER),
        (vec![vec![STRING], vec![bits(WHOLE + 1)]], ROUNDED),
        (vec![vec![BOOL, BOOL], vec![bits(WHOLE - 8)]], NEITHER),
        (vec![vec![bits(HALF - 1), bits(HALF - 9)]], ROUNDED),
        (vec![vec![bits(HALF - 8), bits(HALF - 8)]], NEITHER),
    ]
}

/// A slot that is not declared, fields over it, and the answers.
fn nested() -> Vec<(Slot, Vec<Tree>, Numbers)> {
    let one = |tree| message(1, fields(vec![tree]));
    let both = || message(1, fields(vec![BOOL, BOOL]));
    let tagged = || variants(vec![vec![BOOL]]);
    let many = |count| vec![fixed(INNER, count)];
    vec![
        (one(BOOL), many((1 << 60) - 1), NEITHER),
        (one(BOOL), many(1 << 60), MULTIPLIED),
        (one(optional(BOOL)), many((1 << 60) - 1), NEITHER),
        (one(optional(BOOL)), many(1 << 60), MULTIPLIED),
        (both(), many((1 << 59) - 1), NEITHER),
        (both(), many(1 << 59), MULTIPLIED),
        (tagged(), many((1 << 59) - 1), NEITHER),
        (tagged(), many(1 << 59), MULTIPLIED),
        (one(bits(HALF - 8)), vec![vec2(INNER)], NEITHER),
        (one(bits(HALF - 7)), vec![vec2(INNER)], MULTIPLIED),
        (
            one(bits((1 << 59) - 1)),
            vec![wrap(MAT4, INNER)],
            MULTIPLIED,
        ),
        (one(bits(WHOLE - 8)), vec![optional(INNER)], NEITHER),
        (one(bits(WHOLE - 7)), vec![optional(INNER)], ROUNDED),
        (one(bits(WHOLE - 7)), vec![INNER], NEITHER),
        (one(bits(WHOLE - 7)), vec![INNER, BOOL], ROUNDED),
        (
            one(bits(WHOLE - 7)),
            vec![STRING, result(INNER, VOID)],
            ROUNDED,
        ),
        (one(bits(WHOLE + 1)), vec![wrap(ARRAY, INNER)], NEITHER),
        (one(bits(WHOLE + 1)), vec![fixed(INNER, 0)], ROUNDED),
        // A product here before the sum that packed is the first to pass it.
        (
            one(BOOL),
            vec![fixed(INNER, 1 << 60), by_sum()],
            (Some(SUM), Some(PRODUCT)),
        ),
    ]
}

/// A slot declared, and named by a declared message, plainly or by a newtype.
fn around(all: &mut Vec<Rounded>, what: &str, slot: Slot, numbers: Numbers) {
    let alone = vec![slot.clone()];
    add(all, what.to_owned(), alone, vec![0], placed(numbers, 0, 0));
    let naming = |id| message(1, fields(vec![Tree::Named(id)]));
    let newtype = Slot::Newtype {
        inner: BOOL,
        terminal: Tree::Named(0),
    };
    for named in [0, 2] {
        let slots = vec![slot.clone(), naming(named), newtype.clone()];
        let what = format!("{what} below a message, as {named}");
        add(all, what, slots, vec![1], placed(numbers, 1, 1));
    }
}

/// Of two declared slots the first passes the limit on the head board alone.
fn turns(all: &mut Vec<Rounded>) {
    let slots = |tree| [bits(WHOLE + 1), tree].map(|tree| message(0, fields(vec![tree])));
    for (tree, number) in [(by_sum(), SUM), (by_product(), PRODUCT)] {
        let slots = slots(tree).to_vec();
        let first = (Some(number), Some(SUM));
        let what = format!("{number} second");
        add(all, what, slots.clone(), vec![0, 1], placed(first, 1, 0));
        let first = (Some(number), Some(number));
        let what = format!("{number} first");
        add(all, what, slots, vec![1, 0], placed(first, 1, 1));
    }
}

/// The refusals of both layouts, with their places.
fn placed(numbers: Numbers, packed: u64, aligned: u64) -> [Option<(u64, u64)>; 2] {
    let at = |number: Option<u64>, place| number.map(|number| (number, place));
    [at(numbers.0, packed), at(numbers.1, aligned)]
}

fn add(
    all: &mut Vec<Rounded>,
    what: String,
    slots: Vec<Slot>,
    declarations: Vec<u64>,
    [packed, aligned]: [Option<(u64, u64)>; 2],
) {
    let schema = Schema {
        names: vec![0],
        slots,
        declarations,
    };
    all.push(Rounded {
        what,
        schema,
        packed,
        aligned,
    });
}

/// One of them, or sizes drawn near the limit.
pub fn rounded(random: &mut Random) -> Schema {
    let all = all_rounded();
    match random.once_in(2) {
        true => all[random.below(all.len() as u64) as usize].schema.clone(),
        false => near_limit(random),
    }
}

/// Messages and unions of few fields, one of them near the limit, over a short
/// slot.
fn near_limit(random: &mut Random) -> Schema {
    let slots = (0..1 + random.below(2)).map(|_| large(random));
    let mut slots: Vec<Slot> = slots.collect();
    slots.insert(1, short(random));
    let mut schema = declared(vec![0], slots);
    random.shuffle(&mut schema.declarations);
    if random.once_in(3) {
        schema.declarations.retain(|&slot| slot != 1);
    }
    schema
}

fn large(random: &mut Random) -> Slot {
    let mut list = vec![field(0, large_tree(random))];
    list.extend((0..random.below(3)).map(|_| field(0, beside(random))));
    random.shuffle(&mut list);
    either(random, list)
}

/// One or two short fields.
fn short(random: &mut Random) -> Slot {
    let list = (0..1 + random.below(2)).map(|_| field(0, short_tree(random)));
    let list = list.collect();
    either(random, list)
}

fn either(random: &mut Random, list: Vec<Field>) -> Slot {
    match random.below(3) {
        0 => union(vec![list]),
        1 if random.once_in(2) => union(vec![vec![], list]),
        _ => message(0, list),
    }
}

/// A little below a number of bits.
fn near(random: &mut Random, number: u64) -> u64 {
    number - random.below(20)
}

fn large_tree(random: &mut Random) -> Tree {
    // The short slot has up to 40 bits.
    let times = SIZE_LIMIT / (1 + random.below(40));
    match random.below(7) {
        0 => bits(near(random, SIZE_LIMIT)),
        1 => optional(bits(near(random, SIZE_LIMIT))),
        2 => result(bits(near(random, SIZE_LIMIT)), short_tree(random)),
        3 => bits(near(random, HALF)),
        4 => {
            let (kind, factor) = random.pick(&FACTORS);
            wrap(kind, bits(near(random, SIZE_LIMIT / factor)))
        }
        5 => fixed(INNER, near(random, times)),
        _ => optional(fixed(INNER, times)),
    }
}

/// What stands beside it: nothing much, without a largest, or half the limit.
fn beside(random: &mut Random) -> Tree {
    match random.below(6) {
        0 | 1 => STRING,
        2 => bits(near(random, HALF)),
        3 => VOID,
        _ => short_tree(random),
    }
}

fn short_tree(random: &mut Random) -> Tree {
    let few = Tree::SubByte(0, random.below(18));
    match random.below(3) {
        0 => optional(few),
        _ => few,
    }
}
