//! Fields with every number of bits over whole bytes, for the head board: at
//! each end of a size, in messages and in variants, plain, in wrappers and in
//! slots that are named.

use super::schemas::{declarations, ordinals};
use super::trees::encoding;
use crate::model::{
    fixed, live, message, pair, union, wrap, Field, Schema, Slot, Tree, BOOL, MAP, OPTIONAL, RESULT,
};
use crate::random::Random;

const NAMES: u64 = 2;

/// A few slots, each over those before it and now and then over any.
pub fn bits_over(random: &mut Random) -> Schema {
    let slots = 2 + random.below(4);
    let list = (0..slots).map(|slot| slot_of(random, slot, slots));
    Schema {
        names: vec![0; NAMES as usize],
        slots: list.collect(),
        declarations: declarations(random, slots),
    }
}

fn slot_of(random: &mut Random, slot: u64, slots: u64) -> Slot {
    match random.below(10) {
        0 => Slot::Enum {
            backing: 0,
            non_exhaustive: u64::from(random.once_in(4)),
            bits: random.below(20),
            ordinals: live(ordinals(random)),
        },
        1 => {
            let terminal = tree(random, slot);
            Slot::Newtype {
                inner: BOOL,
                terminal,
            }
        }
        2..=4 => {
            let variants = random.pick(&[1, 1, 2, 3]);
            union((0..variants).map(|_| fields(random, slot, slots)).collect())
        }
        _ => message(slot, fields(random, slot, slots)),
    }
}

fn fields(random: &mut Random, slot: u64, slots: u64) -> Vec<Field> {
    let count = random.pick(&[0, 1, 1, 2, 3]);
    let one = |random: &mut Random| Field {
        name: random.below(NAMES),
        encoding: encoding(random),
        tree: match random.once_in(12) {
            true => wrap(OPTIONAL, Tree::Named(random.below(slots + 1))),
            false => tree(random, slot),
        },
        limit: 0,
    };
    (0..count).map(|_| one(random)).collect()
}

/// A type over the slots below one.
fn tree(random: &mut Random, below: u64) -> Tree {
    let part = |random: &mut Random| leaf(random, below);
    match random.below(12) {
        0..=2 => part(random),
        3 => wrap(OPTIONAL, part(random)),
        4..=6 => pair(RESULT, part(random), part(random)),
        7 => fixed(part(random), random.below(12)),
        8 => fixed(wrap(OPTIONAL, part(random)), random.below(12)),
        9 => {
            let element = pair(RESULT, part(random), part(random));
            fixed(element, random.below(4))
        }
        10 => {
            let element = random.pick(&[OPTIONAL, 10, 11]);
            wrap(10 + random.below(6), wrap(element, part(random)))
        }
        _ => match random.below(3) {
            0 => pair(RESULT, part(random), Tree::Semantic(0)),
            1 => pair(MAP, part(random), part(random)),
            _ => Tree::Semantic(random.below(6)),
        },
    }
}

fn leaf(random: &mut Random, below: u64) -> Tree {
    let bits = random.below(20);
    match random.below(7) {
        0 | 1 => Tree::SubByte(random.below(2), bits),
        2 => Tree::Bits((0..bits).map(|_| random.below(NAMES)).collect()),
        3 => fixed(BOOL, bits),
        4 | 5 if below > 0 => Tree::Named(random.below(below)),
        _ => Tree::Primitive(random.below(14)),
    }
}
