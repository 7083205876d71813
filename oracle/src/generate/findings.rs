//! Schemas with findings: endless types, trait fields, and very many.

use super::schemas::{declarations, span};
use super::trees::WRAPS;
use crate::model::{
    declared, field, fixed, generic, message, pair, union, wrap, Field, Impl, Schema, Slot, Tree,
    OPTIONAL, RESULT, U32, U8, VOID,
};
use crate::random::Random;

/// A ring of messages, some of its links through newtypes, by inner or by
/// terminal type, through unions or through wrappers.
pub fn endless(random: &mut Random) -> Schema {
    let count = match random.below(20) {
        0 => 100 + random.below(100),
        _ => 1 + random.below(5),
    };
    // Message i names newtype count + i, or passes it by.
    let mut slots: Vec<Slot> = (0..count)
        .map(|slot| message(slot, links(random, slot, count)))
        .collect();
    slots.extend((0..count).map(|slot| between(random, (slot + 1) % count)));
    Schema {
        names: vec![0],
        declarations: declarations(random, slots.len() as u64),
        slots,
    }
}

fn links(random: &mut Random, slot: u64, count: u64) -> Vec<Field> {
    let fields = random.pick(&[1, 1, 2, 3]);
    let link = |_| {
        let next = Tree::Named(random.pick(&[(slot + 1) % count, count + slot, count + slot]));
        let tree = match random.below(8) {
            0 => wrap(random.pick(&WRAPS), next),
            1 => fixed(next, random.below(2)),
            2 => pair(RESULT, U8, next),
            3 => Tree::Named(random.below(2 * count)),
            _ => next,
        };
        field(0, tree)
    };
    (0..fields).map(link).collect()
}

fn between(random: &mut Random, next: u64) -> Slot {
    let name = Tree::Named(next);
    match random.below(6) {
        // Endless types are searched by the inner type alone.
        0 => Slot::Newtype {
            inner: VOID,
            terminal: name,
        },
        1 => Slot::Newtype {
            inner: wrap(OPTIONAL, name),
            terminal: VOID,
        },
        2 => union(vec![vec![], vec![field(0, name)]]),
        3 => message(next, vec![field(0, name)]),
        _ => Slot::Newtype {
            inner: name.clone(),
            terminal: U32,
        },
    }
}

/// Slots of `trait_fields`.
const TARGET: u64 = 0;
const TRAIT: u64 = 1;
const EMPTY: u64 = 2;
const PLAIN_ALIAS: u64 = 3;
const OUTER_ALIAS: u64 = 4;
const OTHER: u64 = 5;
const IMPLS: u64 = 6;

/// Names: three of fields and parameters, one found nowhere, two aliases, the
/// target and another slot.
const UNFOUND: u64 = 3;
const PLAIN_NAME: u64 = 4;
const OUTER_NAME: u64 = 5;
const TARGET_NAME: u64 = 6;
const OTHER_NAME: u64 = 7;
const NAMES: u64 = 8;

/// A trait over few types, and impls of it for one message: each trait field
/// and each message field has one of few names and types.
pub fn trait_fields(random: &mut Random) -> Schema {
    let slots = IMPLS + 1 + random.below(4);
    let list = (0..slots).map(|slot| match slot {
        TARGET => {
            let count = random.below(10);
            let one = |_| field(random.below(3), resolved(random));
            message(slot, (0..count).map(one).collect())
        }
        TRAIT => Slot::Trait {
            parameters: parameters(random),
            fields: (0..1 + random.below(5))
                .map(|_| (random.below(3), expression(random, 3)))
                .collect(),
        },
        EMPTY => Slot::Empty,
        PLAIN_ALIAS => alias(random, 0),
        OUTER_ALIAS => alias(random, 1),
        OTHER => random.pick(&[Slot::Config, message(slot, vec![])]),
        _ => Slot::Impl(implementing(random)),
    });
    let list: Vec<Slot> = list.collect();
    let mut schema = declared(names(random), list);
    schema.declarations = declarations(random, slots);
    schema
}

fn names(random: &mut Random) -> Vec<u64> {
    let mut finds = vec![0; NAMES as usize];
    finds[PLAIN_NAME as usize] = PLAIN_ALIAS + 1;
    finds[OUTER_NAME as usize] = OUTER_ALIAS + 1;
    finds[TARGET_NAME as usize] = TARGET + 1;
    finds[OTHER_NAME as usize] = OTHER + 1;
    // A parameter's name may find a slot all the same.
    finds[random.below(3) as usize] = random.pick(&[0, TARGET + 1, OTHER + 1]);
    finds
}

/// None, one, or more, the same one twice included.
fn parameters(random: &mut Random) -> Vec<u64> {
    let count = random.pick(&[0, 1, 1, 2, 2, 3]);
    (0..count).map(|_| random.below(3)).collect()
}

/// `levels` aliases stand below this one.
fn alias(random: &mut Random, levels: u64) -> Slot {
    let argument = Tree::Named(random.below(3));
    let target = match random.below(6) {
        0 => wrap(OPTIONAL, argument),
        1 => U8,
        2 => Tree::Qualified(random.pick(&[0, 1, TARGET_NAME, UNFOUND])),
        3 => Tree::Named(random.below(NAMES)),
        4 if levels > 0 => generic(PLAIN_NAME, argument),
        _ => argument,
    };
    Slot::Alias {
        parameters: parameters(random),
        target,
    }
}

fn expression(random: &mut Random, depth: u32) -> Tree {
    if depth > 0 {
        let name = random.pick(&[PLAIN_NAME, PLAIN_NAME, OUTER_NAME, UNFOUND, OTHER_NAME]);
        match random.below(8) {
            0 | 1 => return generic(name, expression(random, depth - 1)),
            2 => return wrap(OPTIONAL, expression(random, depth - 1)),
            _ => {}
        }
    }
    match random.below(8) {
        0 => U8,
        1 => Tree::Qualified(random.pick(&[0, 1, TARGET_NAME, OTHER_NAME, UNFOUND])),
        2 => Tree::Named(UNFOUND),
        3 => Tree::Named(random.pick(&[TARGET_NAME, OTHER_NAME, PLAIN_NAME])),
        _ => Tree::Named(random.below(3)),
    }
}

fn resolved(random: &mut Random) -> Tree {
    let nowhere = u64::from(u32::MAX);
    let leaf = match random.below(7) {
        0 => U8,
        1 => U32,
        2 => Tree::Named(random.pick(&[EMPTY, 40, PLAIN_ALIAS])),
        3 | 4 => Tree::Named(nowhere),
        _ => Tree::Named(random.pick(&[TARGET, OTHER])),
    };
    match random.below(5) {
        0 => wrap(OPTIONAL, leaf),
        _ => leaf,
    }
}

fn implementing(random: &mut Random) -> Impl {
    let nowhere = u64::from(u32::MAX);
    let count = random.pick(&[0, 1, 1, 2, 2, 3]);
    Impl {
        span: span(random),
        trait_number: random.pick(&[TRAIT + 1, TRAIT + 1, TRAIT + 1, 0, EMPTY + 1, 1, nowhere]),
        trait_span: random.once_in(2).then(|| span(random)),
        arguments: (0..count).map(|_| resolved(random)).collect(),
        target: match random.below(8) {
            0 => Tree::Named(random.pick(&[EMPTY, 40, nowhere])),
            1 | 3 => Tree::Named(random.pick(&[OTHER, TRAIT, PLAIN_ALIAS])),
            2 => wrap(OPTIONAL, Tree::Named(TARGET)),
            _ => Tree::Named(TARGET),
        },
    }
}

/// About as many findings as the program has places for, or far more.
pub fn many(random: &mut Random) -> Schema {
    let findings = random.pick(&[1, 999, 1_000, 1_001, 1_002, 3_000, 5_000]);
    many_findings(findings, random.below(3))
}

/// So many findings: 0 of one endless message, 1 of one impl, 2 of many impls
/// of all classes but 1.
pub fn many_findings(findings: u64, kind: u64) -> Schema {
    match kind {
        0 => {
            let fields = vec![field(0, Tree::Named(0)); findings as usize];
            declared(vec![0], vec![message(0, fields)])
        }
        1 => lacking(findings, 1),
        _ => lacking(findings, 200),
    }
}

/// Impls of one trait that lacks an equal share each; the rest is class 3.
fn lacking(findings: u64, impls: u64) -> Schema {
    let impls = impls.min(findings.max(1));
    let share = findings / impls;
    let body = |slot: u64, target| {
        Slot::Impl(Impl {
            span: (slot, slot + 1),
            trait_number: 2,
            trait_span: None,
            arguments: vec![],
            target: Tree::Named(target),
        })
    };
    let mut slots = vec![
        message(0, vec![field(0, VOID)]),
        Slot::Trait {
            parameters: vec![],
            fields: vec![(0, U8); share as usize],
        },
    ];
    slots.extend((0..impls).map(|slot| body(slot, 0)));
    slots.extend((0..findings - impls * share).map(|slot| body(slot, 1)));
    declared(vec![0], slots)
}
