//! The first step that passes the limit, where several would: document 02
//! tells a sum (11) from a product (14) by it.

use super::edges::{add, Edge};
use crate::format::SIZE_LIMIT;
use crate::model::{
    declared, field, fixed, message, pair, union, wrap, Field, Schema, Slot, Tree, BOOL, OPTIONAL,
    RESULT, U8, VEC2,
};

pub const SUM: u64 = 11;
pub const PRODUCT: u64 = 14;

/// The greatest size that there is.
fn most() -> Tree {
    fixed(BOOL, SIZE_LIMIT)
}

/// Just below the limit; two of them add up to more.
fn big() -> Tree {
    fixed(U8, (1 << 60) - 1)
}

/// Half the greatest: twice it is accepted, but not twice an Optional of it.
fn half() -> Tree {
    fixed(BOOL, SIZE_LIMIT / 2)
}

/// Passes the limit by a product.
pub fn by_product() -> Tree {
    fixed(U8, 1 << 60)
}

/// Passes the limit by a sum.
pub fn by_sum() -> Tree {
    wrap(OPTIONAL, most())
}

pub fn result(ok: Tree, err: Tree) -> Tree {
    pair(RESULT, ok, err)
}

pub fn vec2(tree: Tree) -> Tree {
    wrap(VEC2, tree)
}

pub fn optional(tree: Tree) -> Tree {
    wrap(OPTIONAL, tree)
}

pub fn fields(trees: Vec<Tree>) -> Vec<Field> {
    trees.into_iter().map(|tree| field(0, tree)).collect()
}

pub fn variants(lists: Vec<Vec<Tree>>) -> Slot {
    union(lists.into_iter().map(fields).collect())
}

/// Fields, and the number of the refusal. Left to right, each added once it
/// is worked out; the ok side, then the err side, then their sum.
fn field_lists() -> Vec<(Vec<Tree>, u64)> {
    vec![
        (vec![big(), big(), by_product()], SUM),
        (vec![big(), by_product(), big()], PRODUCT),
        (vec![by_product(), big(), big()], PRODUCT),
        (vec![big(), by_sum(), by_product()], SUM),
        (vec![by_sum(), by_product()], SUM),
        (vec![by_product(), by_sum()], PRODUCT),
        (vec![most(), vec2(most())], PRODUCT),
        (vec![most(), U8, by_product()], SUM),
        (vec![result(most(), by_product())], PRODUCT),
        (vec![result(by_sum(), by_product())], SUM),
        (vec![result(by_product(), by_sum())], PRODUCT),
        (vec![result(most(), by_sum())], SUM),
        (vec![result(most(), U8)], SUM),
        (vec![result(U8, most())], SUM),
        (vec![result(result(most(), U8), by_product())], SUM),
        (vec![result(U8, result(by_product(), by_sum()))], PRODUCT),
        (vec![vec2(optional(half()))], PRODUCT),
        (vec![vec2(by_sum())], SUM),
        (vec![vec2(by_product())], PRODUCT),
        (vec![vec2(result(most(), U8))], SUM),
        (vec![optional(vec2(most()))], PRODUCT),
        (vec![optional(by_sum())], SUM),
        (vec![optional(vec2(by_sum()))], SUM),
        (vec![fixed(by_sum(), 0)], SUM),
        (vec![fixed(by_product(), 0)], PRODUCT),
        (vec![fixed(result(most(), U8), 2)], SUM),
        (vec![fixed(optional(by_product()), 2)], PRODUCT),
    ]
}

/// Variants, and the number of the refusal. Each by itself, and 8 last.
fn variant_lists() -> Vec<(Vec<Vec<Tree>>, u64)> {
    vec![
        (vec![vec![most()], vec![by_product()]], PRODUCT),
        (vec![vec![most()], vec![], vec![by_product()]], PRODUCT),
        (vec![vec![most()], vec![by_sum()]], SUM),
        (vec![vec![by_product()], vec![by_sum()]], PRODUCT),
        (vec![vec![by_sum()], vec![by_product()]], SUM),
        (vec![vec![big(), big()], vec![by_product()]], SUM),
        (vec![vec![by_product()], vec![big(), big()]], PRODUCT),
        (vec![vec![most()]], SUM),
        (vec![vec![], vec![most()]], SUM),
    ]
}

/// All of them, in a declared slot and in one that a declared slot names.
pub fn first_steps(all: &mut Vec<Edge>) {
    for (trees, number) in field_lists() {
        let what = format!("{trees:?}");
        around(all, &what, message(0, fields(trees.clone())), number);
        around(all, &what, variants(vec![trees]), number);
    }
    for (lists, number) in variant_lists() {
        let what = format!("{lists:?}");
        around(all, &what, variants(lists), number);
    }
    turns(all);
}

/// What stands around a name that is refused: nothing in front of it passes
/// the limit, and what comes after it would.
const AROUND: [fn(Tree) -> Slot; 8] = [
    |name| message(0, fields(vec![name])),
    |name| message(0, fields(vec![most(), name, by_product()])),
    |name| variants(vec![vec![most()], vec![name], vec![by_product()]]),
    |name| message(0, fields(vec![result(name, by_product())])),
    |name| message(0, fields(vec![result(most(), name)])),
    |name| message(0, fields(vec![optional(name)])),
    |name| message(0, fields(vec![fixed(name, 2)])),
    |name| message(0, fields(vec![vec2(name)])),
];

fn around(all: &mut Vec<Edge>, what: &str, slot: Slot, number: u64) {
    let alone = declared(vec![0], vec![slot.clone()]);
    refused(all, what.to_owned(), alone, number, 0);
    for (index, make) in AROUND.iter().enumerate() {
        let schema = Schema {
            names: vec![0],
            slots: vec![slot.clone(), make(Tree::Named(0))],
            declarations: vec![1],
        };
        refused(all, format!("{what} in {index}"), schema, number, 1);
    }
}

/// Of two declared slots the first in the list gives number and place.
fn turns(all: &mut Vec<Edge>) {
    let slots = [by_sum(), by_product()].map(|tree| message(0, fields(vec![tree])));
    for (declarations, number, place) in [(vec![0, 1], SUM, 0), (vec![1, 0], PRODUCT, 1)] {
        let schema = Schema {
            names: vec![0],
            slots: slots.to_vec(),
            declarations,
        };
        refused(all, format!("{number} first"), schema, number, place);
    }
}

fn refused(all: &mut Vec<Edge>, what: String, schema: Schema, number: u64, place: u64) {
    add(all, what, schema, Some((number, place)));
}
