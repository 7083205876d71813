//! Retired ones that hold a width, or do not: live and retired ones where widths
//! change, in enums of every backing and in flags, declared and not, below slots
//! before and after them; and sizes that pass the limit by retired ones alone.

use super::additions::limit;
use super::first::{fields, optional, result};
use super::limits::FACTORS;
use super::schemas::declarations;
use super::trees::encoding;
use super::Emit;
use crate::format::{Entry, SIZE_LIMIT, U32_LIMIT};
use crate::model::{
    declared, fixed, message, union, wrap, Field, Ordinals, Schema, Slot, Tree, ARRAY, BOOL, U8,
};
use crate::random::Random;

/// An image of either kind.
pub fn held_widths(random: &mut Random, entry: Entry, emit: Emit<'_>) {
    let schema = match random.once_in(3) {
        true => near_limit(random),
        false => at_borders(random),
    };
    emit(&schema.bytes(entry.edition));
}

/// Slot kinds as often as they are drawn, besides one of each of the first three.
const KINDS: [u64; 9] = [1, 2, 3, 2, 2, 3, 3, 4, 5];

fn at_borders(random: &mut Random) -> Schema {
    let mut kinds = KINDS[..3].to_vec();
    kinds.extend((0..2 + random.below(7)).map(|_| random.pick(&KINDS)));
    random.shuffle(&mut kinds);
    let list = kinds.iter().map(|&kind| slot_of(random, kind, &kinds));
    Schema {
        names: vec![0],
        slots: list.collect(),
        declarations: declarations(random, kinds.len() as u64),
    }
}

fn slot_of(random: &mut Random, kind: u64, kinds: &[u64]) -> Slot {
    match kind {
        1 => message(0, some_fields(random, kinds)),
        2 => Slot::Enum {
            backing: random.below(8).saturating_sub(3),
            non_exhaustive: random.below(2),
            bits: random.pick(&[0, 5, 255]),
            ordinals: ordinals(random, ordinal),
        },
        3 => Slot::Flags {
            bytes: random.pick(&[0, 5, 255]),
            bits: ordinals(random, bit),
        },
        4 => {
            let variants = 1 + random.below(2);
            let fields = (0..variants).map(|_| some_fields(random, kinds));
            union(fields.collect())
        }
        _ => Slot::Newtype {
            inner: BOOL,
            terminal: held(random, kinds),
        },
    }
}

fn ordinals(random: &mut Random, one: fn(&mut Random) -> u64) -> Ordinals {
    let mut list = |counts: &[u64]| -> Vec<u64> {
        let count = random.pick(counts);
        (0..count).map(|_| one(random)).collect()
    };
    Ordinals {
        live: list(&[0, 1, 1, 2]),
        retired: list(&[0, 1, 1, 1, 2]),
    }
}

/// Where the width of an enum changes, and at the ends.
fn ordinal(random: &mut Random) -> u64 {
    let power = 1 << random.below(32);
    match random.below(3) {
        0 => power,
        1 => power - 1,
        _ => random.pick(&[0, 1, 255, 256, U32_LIMIT]),
    }
}

/// Where the width of flags changes, and at the ends.
fn bit(random: &mut Random) -> u64 {
    random.pick(&[0, 1, 7, 7, 8, 8, 15, 16, 31, 32, U32_LIMIT])
}

/// Fields over enums and flags, now and then over any slot.
fn some_fields(random: &mut Random, kinds: &[u64]) -> Vec<Field> {
    let one = |random: &mut Random| Field {
        name: 0,
        encoding: encoding(random),
        tree: match random.once_in(5) {
            true => Tree::Named(random.below(kinds.len() as u64)),
            false => held(random, kinds),
        },
        limit: limit(random),
    };
    (0..1 + random.below(3)).map(|_| one(random)).collect()
}

/// A type over an enum or flags.
fn held(random: &mut Random, kinds: &[u64]) -> Tree {
    let slots = (0..kinds.len() as u64).filter(|&slot| matches!(kinds[slot as usize], 2 | 3));
    let slots: Vec<u64> = slots.collect();
    let named = Tree::Named(random.pick(&slots));
    over(random, named)
}

fn over(random: &mut Random, named: Tree) -> Tree {
    match random.below(8) {
        0..=2 => named,
        3 => optional(named),
        4 => fixed(named, random.below(5)),
        5 => result(named, U8),
        6 => wrap(10 + random.below(6), named),
        _ => wrap(ARRAY, named),
    }
}

/// Slots near the limit: the one that retired ones make wider, and a newtype of
/// it.
const WIDER: u64 = 1;
const NEWTYPE: u64 = 2;

/// The first bit for which flags take 1, 2, 4 and 8 bytes.
const FIRST_BITS: [u64; 4] = [0, 8, 16, 32];

fn near_limit(random: &mut Random) -> Schema {
    let (wider, by_live, bits) = wider(random);
    let newtype = Slot::Newtype {
        inner: BOOL,
        terminal: Tree::Named(WIDER),
    };
    let plain = message(0, fields(vec![over(random, Tree::Named(WIDER))]));
    let mut users = [large(random, by_live, bits), plain];
    random.shuffle(&mut users);
    let [before, after] = users;
    let mut schema = declared(vec![0], vec![before, wider, newtype, after]);
    random.shuffle(&mut schema.declarations);
    // Then it has its stored width.
    if random.once_in(5) {
        schema.declarations.retain(|&slot| slot != WIDER);
    }
    schema
}

/// An enum or flags with a retired one above the live one, and its bits by that
/// one alone and by both.
fn wider(random: &mut Random) -> (Slot, u64, u64) {
    let one_each = |live, retired| Ordinals {
        live: vec![live],
        retired: vec![retired],
    };
    if random.once_in(2) {
        let by_live = 1 + random.below(31);
        let bits = by_live + 1 + random.below(32 - by_live);
        let slot = Slot::Enum {
            backing: 0,
            non_exhaustive: 0,
            bits: random.pick(&[0, by_live, bits]),
            ordinals: one_each((1 << by_live) - 1, 1 << (bits - 1)),
        };
        return (slot, by_live, bits);
    }
    let live = random.below(3);
    let retired = live + 1 + random.below(3 - live);
    let slot = Slot::Flags {
        bytes: random.pick(&[0, 1 << live, 1 << retired]),
        bits: one_each(FIRST_BITS[live as usize], FIRST_BITS[retired as usize]),
    };
    (slot, 8 << live, 8 << retired)
}

/// A product or a sum that passes the limit by the retired one alone, or all but.
fn large(random: &mut Random, by_live: u64, bits: u64) -> Slot {
    let named = Tree::Named(random.pick(&[WIDER, NEWTYPE]));
    let most = random.pick(&[SIZE_LIMIT / by_live, SIZE_LIMIT / bits]);
    let count = most + random.below(2);
    // The head board rounds, and a union has 8 more.
    let room = by_live + random.below(bits - by_live + 8);
    let list = fields(match random.below(6) {
        0 => vec![fixed(named, count)],
        1 => vec![optional(fixed(named, count))],
        2 => {
            let (kind, factor) = random.pick(&FACTORS);
            vec![wrap(kind, fixed(named, count / factor))]
        }
        _ => vec![fixed(BOOL, SIZE_LIMIT - room), named],
    });
    match random.once_in(3) {
        true => union(vec![list]),
        false => message(0, list),
    }
}
