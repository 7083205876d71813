//! Traits, impls and aliases over few names and types, so that fields match
//! about as often as they do not.

use super::schemas::span;
use super::trees::{tree, Pool};
use crate::model::{
    field, generic, message, wrap, Impl, Schema, Slot, Tree, ARRAY, OPTIONAL, U8, VEC3,
};
use crate::random::Random;

/// Slots: two messages, two aliases, two traits, three impls, a config.
pub fn conformance(random: &mut Random) -> Schema {
    let names = 2 + random.below(4);
    let slots: Vec<Slot> = vec![
        target(random, names, 0),
        target(random, names, 1),
        // Only the second alias has a generic, and name 0 finds the first.
        alias(random, names, &[]),
        alias(random, names, &[0]),
        trait_slot(random, names),
        trait_slot(random, names),
        impl_slot(random),
        impl_slot(random),
        impl_slot(random),
        Slot::Config,
    ];
    let mut finds: Vec<u64> = (0..names).map(|_| find(random)).collect();
    finds[0] = 3;
    Schema {
        names: finds,
        declarations: (0..slots.len() as u64).collect(),
        slots,
    }
}

/// Nothing, a message, the second alias, a trait, an impl or the config.
fn find(random: &mut Random) -> u64 {
    random.pick(&[0, 1, 2, 1, 2, 5, 7, 10, 4])
}

fn target(random: &mut Random, names: u64, slot: u64) -> Slot {
    let fields = (0..random.below(7)).map(|_| field(random.below(names), small_type(random)));
    message(slot, fields.collect())
}

fn small_type(random: &mut Random) -> Tree {
    let leaf = random.pick(&[
        U8,
        Tree::Named(0),
        Tree::Named(1),
        Tree::Named(u64::from(u32::MAX)),
        Tree::Named(2),
        Tree::Bits(vec![0, 1]),
        Tree::SubByte(1, 3),
    ]);
    match random.below(6) {
        0 => wrap(OPTIONAL, leaf),
        1 => wrap(VEC3, leaf),
        _ => leaf,
    }
}

fn alias(random: &mut Random, names: u64, generics: &[u64]) -> Slot {
    let target = match random.below(5) {
        0 => small_type_of_names(random, names),
        1 if !generics.is_empty() => generic(random.pick(generics), Tree::Named(0)),
        _ => Tree::Named(random.below(names)),
    };
    Slot::Alias {
        parameters: parameters(random, names),
        target,
    }
}

fn small_type_of_names(random: &mut Random, names: u64) -> Tree {
    let leaf = match random.below(5) {
        0 => U8,
        1 => Tree::Qualified(random.below(names)),
        2 => Tree::Bits(vec![0, 1]),
        _ => Tree::Named(random.below(names)),
    };
    match random.below(5) {
        0 => wrap(OPTIONAL, leaf),
        1 => wrap(VEC3, leaf),
        _ => leaf,
    }
}

/// None, one or two, the same name twice included.
fn parameters(random: &mut Random, names: u64) -> Vec<u64> {
    (0..random.below(3)).map(|_| random.below(names)).collect()
}

fn trait_slot(random: &mut Random, names: u64) -> Slot {
    let fields = (0..random.below(4)).map(|_| {
        let tree = match random.below(6) {
            0 => generic(random.below(names), small_type_of_names(random, names)),
            1 => generic(0, generic(random.below(names), Tree::Named(0))),
            2 => tree(random, 3, &Pool::expressions(names, (0..names).collect())),
            _ => small_type_of_names(random, names),
        };
        (random.below(names), tree)
    });
    Slot::Trait {
        fields: fields.collect(),
        parameters: parameters(random, names),
    }
}

fn impl_slot(random: &mut Random) -> Slot {
    let count = random.below(3);
    Slot::Impl(Impl {
        span: span(random),
        trait_number: random.pick(&[5, 5, 5, 6, 6, 6, 0, 1, 40]),
        trait_span: random.once_in(2).then(|| span(random)),
        arguments: (0..count).map(|_| small_type(random)).collect(),
        target: match random.below(8) {
            0 => Tree::Named(random.below(12)),
            1 => wrap(ARRAY, Tree::Named(0)),
            _ => Tree::Named(random.below(2)),
        },
    })
}
