//! Limits of elements: fields that they bear on and fields that they do not, at
//! every limit where a group is gained, over elements with a largest, without one
//! and of no bits; and sizes that pass 2^63 - 1 by limits alone, or all but.

use super::deep::through_entries;
use super::first::{by_product, by_sum, optional, result};
use super::schemas::declarations;
use super::Emit;
use crate::answer::elements::groups;
use crate::format::{Entry, SIZE_LIMIT, U32_LIMIT};
use crate::model::{
    declared, field, fixed, live, message, pair, union, wrap, Encoding, Field, Schema, Slot, Tree,
    ARRAY, BOOL, MAP, SET, U32, U8, VOID,
};
use crate::random::Random;

/// An image of either kind, seldom one that goes deep.
pub fn limited_arrays(random: &mut Random, entry: Entry, emit: Emit<'_>) {
    let schema = match random.below(10) {
        _ if random.once_in(1_000) => {
            through_entries(100 + random.below(413), random.pick(&[0, 30]))
        }
        0..=6 => near_limit(random),
        _ => at_borders(random),
    };
    emit(&schema.bytes(entry.edition));
}

const STRING: Tree = Tree::Semantic(0);

/// Where a group is gained, at the end of the range, few, and none.
const LIMITS: [u64; 13] = [
    0,
    1,
    3,
    127,
    128,
    (1 << 14) - 1,
    1 << 14,
    (1 << 21) - 1,
    1 << 21,
    (1 << 28) - 1,
    1 << 28,
    U32_LIMIT,
    U32_LIMIT,
];

/// Slot kinds as often as they are drawn, besides one of each of the first three;
/// 5 is a newtype of an array, 6 one of something else.
const KINDS: [u64; 7] = [1, 4, 5, 1, 1, 6, 2];

fn at_borders(random: &mut Random) -> Schema {
    let mut kinds = KINDS[..3].to_vec();
    kinds.extend((0..random.below(4)).map(|_| random.pick(&KINDS)));
    random.shuffle(&mut kinds);
    let list = kinds.iter().map(|&kind| slot_of(random, kind, &kinds));
    Schema {
        names: vec![0],
        slots: list.collect(),
        declarations: declarations(random, kinds.len() as u64),
    }
}

fn slot_of(random: &mut Random, kind: u64, kinds: &[u64]) -> Slot {
    match kind {
        1 => message(0, some_fields(random, kinds)),
        2 => Slot::Enum {
            backing: 0,
            non_exhaustive: 0,
            bits: random.below(9),
            ordinals: live(vec![random.below(600)]),
        },
        4 => {
            let variants = 1 + random.below(2);
            union((0..variants).map(|_| some_fields(random, kinds)).collect())
        }
        5 => Slot::Newtype {
            inner: BOOL,
            terminal: array(random, kinds),
        },
        _ => Slot::Newtype {
            inner: BOOL,
            terminal: random.pick(&[U8, VOID, STRING, optional(U32)]),
        },
    }
}

fn some_fields(random: &mut Random, kinds: &[u64]) -> Vec<Field> {
    let count = 2 + random.below(3);
    (0..count).map(|_| any_field(random, kinds)).collect()
}

/// Most of them have a limit that bears on elements.
fn any_field(random: &mut Random, kinds: &[u64]) -> Field {
    let array = array(random, kinds);
    let (last, tree) = match random.below(10) {
        0..=5 => (0, array),
        6 => (0, optional(array)),
        7 => {
            let slots = (0..kinds.len() as u64).filter(|&slot| kinds[slot as usize] == 5);
            (0, Tree::Named(random.pick(&slots.collect::<Vec<u64>>())))
        }
        8 => (1 + random.below(2), array),
        _ => (
            0,
            random.pick(&[fixed(array, 2), U8, VOID, result(U8, STRING)]),
        ),
    };
    let deltas = random.pick(&[0, 0, 0, 0, 0, 1, 2, 31]);
    Field {
        name: 0,
        encoding: Encoding { deltas, last },
        tree,
        limit: random.pick(&LIMITS),
    }
}

fn array(random: &mut Random, kinds: &[u64]) -> Tree {
    let one = element(random, kinds);
    match random.below(4) {
        0 => wrap(ARRAY, one),
        1 => wrap(SET, one),
        _ => pair(MAP, one, element(random, kinds)),
    }
}

/// A quarter has no largest, another no bits.
fn element(random: &mut Random, kinds: &[u64]) -> Tree {
    match random.below(12) {
        0..=2 => random.pick(&[VOID, VOID, fixed(U8, 0), Tree::Bits(vec![])]),
        3 => STRING,
        4 => wrap(random.pick(&[ARRAY, SET]), U8),
        5 => fixed(optional(BOOL), 2),
        6 => Tree::Named(random.below(kinds.len() as u64 + 1)),
        7 => random.pick(&[optional(U8), result(BOOL, U32)]),
        _ => random.pick(&[BOOL, U8, Tree::SubByte(0, 5), U32]),
    }
}

/// What a field with this limit comes to, the element being as long as it has to be.
const LARGEST: [(u64, u64); 18] = [
    (SIZE_LIMIT, 1),
    (SIZE_LIMIT, 1),
    (SIZE_LIMIT, 17),
    (SIZE_LIMIT, 14_737),
    (SIZE_LIMIT, 6_309_029),
    (SIZE_LIMIT, 157_725_725),
    // The greatest in whole bytes.
    (SIZE_LIMIT - 7, 1),
    (SIZE_LIMIT - 7, 2),
    (SIZE_LIMIT - 7, 16),
    (SIZE_LIMIT - 7, 16_712),
    (SIZE_LIMIT - 7, 25_068),
    (SIZE_LIMIT - 7, 3_587_198),
    (SIZE_LIMIT + 1, 1),
    (SIZE_LIMIT + 1, 3),
    (SIZE_LIMIT + 1, 120),
    (SIZE_LIMIT + 1, 1_177_067),
    (SIZE_LIMIT + 1, 3_033_169),
    (SIZE_LIMIT + 1, 1_571_632_781),
];

/// What this limit multiplies to.
const PRODUCT: [(u64, u64); 12] = [
    (SIZE_LIMIT, 1),
    (SIZE_LIMIT, 7),
    (SIZE_LIMIT, 127),
    (SIZE_LIMIT, 337),
    (SIZE_LIMIT, 92_737),
    (SIZE_LIMIT, 649_657),
    (SIZE_LIMIT + 1, 2),
    (SIZE_LIMIT + 1, 128),
    (SIZE_LIMIT + 1, 1 << 14),
    (SIZE_LIMIT + 1, 1 << 21),
    (SIZE_LIMIT + 1, 1 << 28),
    (SIZE_LIMIT + 1, 1 << 31),
];

/// A slot with a large field, at times beside another that is refused.
fn near_limit(random: &mut Random) -> Schema {
    let mut list = large(random);
    match random.below(7) {
        0 => list.push(refused(random)),
        1 => list.push(field(0, random.pick(&[VOID, STRING]))),
        2 => list.insert(0, field(0, random.pick(&[VOID, STRING]))),
        _ => {}
    }
    let one = match random.below(6) {
        0 => union(vec![list]),
        1 => union(vec![vec![], list]),
        _ => message(0, list),
    };
    let mut slots = vec![one];
    if random.once_in(9) {
        slots.push(message(1, vec![refused(random)]));
    }
    let mut schema = declared(vec![0], slots);
    if random.once_in(4) {
        random.shuffle(&mut schema.declarations);
    }
    schema
}

/// Refused without limits too.
fn refused(random: &mut Random) -> Field {
    field(0, random.pick(&[by_sum(), by_sum(), by_product()]))
}

fn large(random: &mut Random) -> Vec<Field> {
    match random.below(21) {
        0..=5 => {
            let (largest, limit) = random.pick(&LARGEST);
            vec![of_bits(
                random,
                limit,
                (largest - 8 * groups(limit)) / limit,
            )]
        }
        6..=8 => {
            let (product, limit) = random.pick(&PRODUCT);
            vec![of_bits(random, limit, product / limit)]
        }
        // In 64 bits these come to little.
        9 => {
            let limit = random.pick(&[4, 8, 1 << 14, 1 << 31, U32_LIMIT]);
            let bits = random.pick(&[1 << 62, SIZE_LIMIT]);
            vec![of_bits(random, limit, bits)]
        }
        10..=12 => {
            let limit = 1 + random.below(2);
            let bits = SIZE_LIMIT + random.below(2);
            vec![entry_of(random, limit, bits)]
        }
        13..=16 => vec![inside(random)],
        17 | 18 => vec![open(random)],
        _ => beside(random),
    }
}

/// A limited field, at times below Delta.
fn limited(random: &mut Random, tree: Tree, limit: u64) -> Field {
    let deltas = random.pick(&[0, 0, 0, 1, 2]);
    Field {
        encoding: Encoding { deltas, last: 0 },
        limit,
        ..field(0, tree)
    }
}

/// Elements of so many bits, at times one bit off.
fn of_bits(random: &mut Random, limit: u64, bits: u64) -> Field {
    let bits = match random.below(8) {
        0 => bits - 1,
        1 => bits + 1,
        _ => bits,
    };
    match random.below(3) {
        0 => limited(random, wrap(ARRAY, fixed(BOOL, bits)), limit),
        1 => limited(random, wrap(SET, fixed(BOOL, bits)), limit),
        _ => entry_of(random, limit, bits),
    }
}

/// A map whose key and value have so many bits together; neither has more than may
/// be.
fn entry_of(random: &mut Random, limit: u64, bits: u64) -> Field {
    let key = bits.saturating_sub(SIZE_LIMIT) + random.below(bits.min(SIZE_LIMIT) / 2 + 1);
    let mut parts = [key, bits - key].map(|bits| fixed(BOOL, bits));
    random.shuffle(&mut parts);
    let [key, value] = parts;
    limited(random, pair(MAP, key, value), limit)
}

/// Elements that are refused, and without a limit are not looked at.
fn inside(random: &mut Random) -> Field {
    let refused = random.pick(&[by_sum(), by_product()]);
    let refused = match random.below(4) {
        0 => optional(refused),
        1 => fixed(refused, 0),
        _ => refused,
    };
    let tree = match random.below(6) {
        0 => wrap(ARRAY, refused),
        1 => wrap(SET, refused),
        2 => pair(MAP, refused, U8),
        3 => pair(MAP, U8, refused),
        _ => pair(MAP, STRING, refused),
    };
    let limit = random.pick(&LIMITS);
    limited(random, tree, limit)
}

/// Elements without largest, whose smallest are never added or multiplied.
fn open(random: &mut Random) -> Field {
    let one = || fixed(optional(BOOL), 1 << 62);
    let tree = match random.below(4) {
        0 => wrap(ARRAY, one()),
        1 => wrap(SET, one()),
        _ => pair(MAP, one(), one()),
    };
    let limit = random.pick(&LIMITS);
    limited(random, tree, limit)
}

/// Two fields that add up to the limit of sizes, or one more.
fn beside(random: &mut Random) -> Vec<Field> {
    let limit = random.pick(&[1, 2, 127, 128, 1 << 21, U32_LIMIT]);
    let bits = (SIZE_LIMIT - 8 * groups(limit)) / limit - random.below(2);
    let largest = 8 * groups(limit) + limit * bits;
    // On the head board both are in whole bytes.
    let left = SIZE_LIMIT - largest + random.below(2);
    let left = left.saturating_sub(random.pick(&[0, 0, 8, 16]));
    let mut list = vec![
        limited(random, wrap(ARRAY, fixed(BOOL, bits)), limit),
        field(0, fixed(BOOL, left)),
    ];
    random.shuffle(&mut list);
    list
}
