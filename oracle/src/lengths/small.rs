//! Small schemas whose lengths can be enumerated: few slots, few bits, all
//! kinds and encodings, loops, repeated and dangling declarations, and sizes
//! that are brought, true to the lengths or not; in edition two retired ones and
//! limits.

use super::rules::lengths_of_slots;
use super::set::Lengths;
use crate::format::{Edition, Layout};
use crate::generate::trees::{encoding, WRAPS};
use crate::import::import;
use crate::model::{
    field, fixed, live, message, pair, union, wrap, Field, Impl, Schema, Slot, Stored, Tree, ARRAY,
    BOOL, MAP, OPTIONAL, RESULT, SET, U8, VEC2, VOID,
};
use crate::random::Random;

const NAMES: u64 = 3;

/// Slot kinds as often as they are drawn.
const KINDS: [u64; 19] = [1, 1, 1, 1, 1, 1, 1, 4, 4, 4, 5, 5, 2, 3, 0, 6, 7, 8, 9];

/// What sizes a schema brings.
#[derive(Clone, Copy, PartialEq, Eq)]
enum Brings {
    Nothing,
    /// Around the lengths; out of order at most where there are no lengths.
    Trusted,
    /// Some of them off.
    Any,
}

pub fn small(random: &mut Random, edition: Edition) -> Schema {
    if random.once_in(12) {
        return taken_again(random);
    }
    let slots = 1 + random.below(6);
    let kinds: Vec<u64> = (0..slots).map(|_| random.pick(&KINDS)).collect();
    let list = (0..slots).map(|slot| slot_of(random, slot, &kinds));
    let mut schema = Schema {
        names: vec![0; NAMES as usize],
        slots: list.collect(),
        declarations: declarations(random, slots),
    };
    if random.once_in(10) {
        endless_elements(random, &mut schema.slots);
    }
    if edition == Edition::Two {
        retire(random, &mut schema.slots);
        limit(random, &mut schema.slots);
    }
    let brings = random.pick(&[
        Brings::Nothing,
        Brings::Nothing,
        Brings::Trusted,
        Brings::Any,
    ]);
    if brings != Brings::Nothing {
        bring_sizes(random, brings, edition, &mut schema);
    }
    schema
}

/// Messages over each other that are Fixed by their fields, some of which bring
/// another size: whether one is Fixed depends on the turns before its own.
fn taken_again(random: &mut Random) -> Schema {
    let slots = 2 + random.below(3);
    let mut schema = Schema {
        names: vec![0; NAMES as usize],
        slots: Vec::new(),
        declarations: (0..slots + random.below(5))
            .map(|_| random.below(slots))
            .collect(),
    };
    for slot in 0..slots {
        let mut fields = vec![field(0, Tree::SubByte(0, random.below(7)))];
        for part in 0..slot {
            let named = Tree::Named(part);
            match random.below(5) {
                0 => fields.push(field(0, fixed(named, random.below(3)))),
                1 => fields.push(field(0, wrap(VEC2, named))),
                2 => fields.push(field(0, named)),
                _ => {}
            }
        }
        schema.slots.push(message(slot, fields));
    }
    for slot in &mut schema.slots {
        if let Slot::Message { stored, .. } = slot {
            *stored = random.pick(&[Stored::None, Stored::Open(0), Stored::Bounded(0, 99)]);
        }
    }
    schema
}

/// All, some or none, in any order, some again, some that point nowhere.
fn declarations(random: &mut Random, slots: u64) -> Vec<u64> {
    let mut list: Vec<u64> = (0..slots).collect();
    if random.once_in(2) {
        random.shuffle(&mut list);
    }
    if random.once_in(3) {
        list.truncate(1 + random.below(slots) as usize);
    }
    match random.below(6) {
        0 => {
            for _ in 0..=random.below(3) {
                let at = random.below(list.len() as u64 + 1) as usize;
                list.insert(at, random.below(slots));
            }
        }
        1 => list.extend_from_within(..),
        _ => {}
    }
    if random.once_in(6) {
        let at = random.below(list.len() as u64 + 1) as usize;
        list.insert(at, random.pick(&[slots, 512, u64::from(u32::MAX)]));
    }
    list
}

fn slot_of(random: &mut Random, slot: u64, kinds: &[u64]) -> Slot {
    let any: Vec<u64> = (0..=kinds.len() as u64).collect();
    match kinds[slot as usize] {
        1 => message(slot, fields(random, &any)),
        2 => Slot::Enum {
            backing: random.below(10).saturating_sub(7),
            non_exhaustive: u64::from(random.once_in(4)),
            bits: random.below(7),
            ordinals: live(numbers(random, 40)),
        },
        3 => Slot::Flags {
            bytes: random.below(3),
            bits: live(numbers(random, 18)),
        },
        4 => {
            let variants = random.below(4);
            union((0..variants).map(|_| fields(random, &any)).collect())
        }
        5 => {
            // No newtype leads back by terminal types alone.
            let earlier = |&id: &u64| id < slot || kinds.get(id as usize) != Some(&5);
            let named: Vec<u64> = any.iter().copied().filter(earlier).collect();
            let terminal = match random.once_in(4) {
                // Through elements it may.
                true => {
                    let other = Tree::Named(random.pick(&any));
                    array(random, &[Tree::Named(slot), other])
                }
                false => tree(random, 3, &named),
            };
            Slot::Newtype {
                inner: BOOL,
                terminal,
            }
        }
        kind => without_size(random, kind),
    }
}

/// Slots that have no size of their own, by kind.
fn without_size(random: &mut Random, kind: u64) -> Slot {
    match kind {
        0 => Slot::Empty,
        6 => Slot::Config,
        7 => Slot::Alias {
            parameters: vec![0],
            target: Tree::Named(random.below(NAMES)),
        },
        8 => Slot::Trait {
            parameters: vec![],
            fields: vec![],
        },
        _ => Slot::Impl(Impl {
            span: (0, 0),
            trait_number: 0,
            trait_span: None,
            arguments: vec![],
            target: Tree::Named(random.below(NAMES)),
        }),
    }
}

fn numbers(random: &mut Random, bound: u64) -> Vec<u64> {
    let count = random.below(3);
    (0..count).map(|_| random.below(bound)).collect()
}

/// Retired ones, many of them above the live ones, and a field more over each
/// enum and flags.
fn retire(random: &mut Random, slots: &mut [Slot]) {
    for slot in 0..slots.len() {
        match &mut slots[slot] {
            Slot::Enum { ordinals, .. } => ordinals.retired = numbers(random, 400),
            Slot::Flags { bits, .. } => bits.retired = numbers(random, 34),
            _ => continue,
        }
        let named = Tree::Named(slot as u64);
        let trees = [
            named.clone(),
            fixed(named.clone(), 3),
            wrap(OPTIONAL, named),
        ];
        let tree = random.pick(&trees);
        add_field(random, slot as u64, tree, slots);
    }
}

/// A message of nothing but itself, which has no value, and an array of it in another
/// one.
fn endless_elements(random: &mut Random, slots: &mut [Slot]) {
    let slot = random.below(slots.len() as u64);
    slots[slot as usize] = message(slot, vec![field(0, Tree::Named(slot))]);
    let tree = array(random, &[Tree::Named(slot)]);
    add_field(random, slot, tree, slots);
}

/// Limits on all fields of few, short elements, and one or two fields more whose
/// elements a limit bears on, their own message among them.
fn limit(random: &mut Random, slots: &mut [Slot]) {
    for _ in 0..random.below(3) {
        let slot = random.below(slots.len() as u64);
        let tree = match random.below(3) {
            0 => array(random, &[VOID, fixed(BOOL, 0)]),
            1 => array(random, &[BOOL, U8, Tree::SubByte(0, 3)]),
            _ => array(random, &[BOOL, Tree::Semantic(0), Tree::Named(slot)]),
        };
        let other = random.pick(&[slot, slots.len() as u64]);
        add_field(random, other, tree, slots);
    }
    for slot in slots {
        match slot {
            Slot::Message { fields, .. } => limit_all(random, fields),
            Slot::Union { variants, .. } => {
                let lists = variants.iter_mut();
                lists.for_each(|fields| limit_all(random, fields));
            }
            _ => {}
        }
    }
}

fn limit_all(random: &mut Random, fields: &mut [Field]) {
    for field in fields {
        let bits = match &field.tree {
            Tree::Wrap(_, part) => about(part),
            Tree::Pair(_, key, value) => about(key) + about(value),
            _ => 1,
        };
        field.limit = match bits {
            0 => random.pick(&[0, 1, 127, 127, 128, 128, 300]),
            1..=40 => random.pick(&[0, 1, 1, 2, 2, 3, 3]),
            _ => random.pick(&[0, 1, 1]),
        };
    }
}

/// About how many bits a type has at most, 0 only if it is 0; so few elements are
/// taken that their lengths stay within the horizon.
fn about(tree: &Tree) -> u64 {
    match tree {
        Tree::Primitive(13) => 0,
        Tree::Primitive(0) => 1,
        Tree::Primitive(1 | 5) => 8,
        Tree::Primitive(_) => 64,
        Tree::SubByte(_, bits) => *bits,
        Tree::Bits(names) => names.len() as u64,
        Tree::Fixed(part, count) => about(part) * count,
        // Without a largest.
        Tree::Semantic(0 | 1) | Tree::Wrap(ARRAY | SET, _) | Tree::Pair(MAP, _, _) => 1,
        Tree::Wrap(_, part) => 1 + 16 * about(part),
        Tree::Pair(_, ok, err) => 1 + about(ok) + about(err),
        _ => 100,
    }
}

/// An Array, Set or Map of these elements.
fn array(random: &mut Random, elements: &[Tree]) -> Tree {
    match random.below(3) {
        0 => wrap(ARRAY, random.pick(elements)),
        1 => wrap(SET, random.pick(elements)),
        _ => pair(MAP, random.pick(elements), random.pick(elements)),
    }
}

fn fields(random: &mut Random, named: &[u64]) -> Vec<Field> {
    let count = random.pick(&[0, 1, 1, 1, 2, 2, 3]);
    let one = |random: &mut Random| Field {
        name: random.below(NAMES),
        encoding: encoding(random),
        tree: tree(random, 3, named),
        limit: 0,
    };
    (0..count).map(|_| one(random)).collect()
}

/// A type of a few levels; long parts are not multiplied often.
fn tree(random: &mut Random, levels: u32, named: &[u64]) -> Tree {
    if levels <= 1 || random.below(9) < 4 {
        return leaf(random, levels == 3, named);
    }
    let part = |random: &mut Random| tree(random, levels - 1, named);
    match random.below(10) {
        0 | 1 => fixed(part(random), random.below(4)),
        2 | 3 => pair(RESULT, part(random), part(random)),
        4 => pair(MAP, part(random), part(random)),
        5 | 6 => wrap(4, part(random)),
        _ => wrap(random.pick(&WRAPS), part(random)),
    }
}

/// A leaf; at the top of a field it may be long.
fn leaf(random: &mut Random, top: bool, named: &[u64]) -> Tree {
    match random.below(12) {
        0..=4 => Tree::Named(random.pick(named)),
        5 => Tree::SubByte(random.below(2), random.below(7)),
        6 => Tree::Bits((0..random.below(4)).map(|_| random.below(NAMES)).collect()),
        7 if top => Tree::Semantic(random.below(6)),
        7 => Tree::Semantic(random.below(3)),
        8 | 9 if top => Tree::Primitive(random.below(14)),
        _ => Tree::Primitive(random.pick(&[0, 0, 1, 2, 5, 6, 13])),
    }
}

/// Lengths do not hang on sizes, so they can be had beforehand; only the packed
/// layout takes sizes that are brought. Some slots are
/// named once more, one without lengths among them, and a slot that brings a
/// size is often not declared, so that the size is used.
fn bring_sizes(random: &mut Random, brings: Brings, edition: Edition, schema: &mut Schema) {
    let slots = schema.slots.len() as u64;
    if random.once_in(4) {
        let slot = random.below(slots);
        schema.slots[slot as usize] = message(slot, vec![field(0, Tree::Named(slot))]);
        add_field(random, slot, Tree::Named(slot), &mut schema.slots);
    }
    let slot = random.below(slots);
    add_field(random, slot, Tree::Named(slot), &mut schema.slots);
    let Ok(imported) = import(&schema.bytes(edition), edition) else {
        return;
    };
    let lengths = lengths_of_slots(&imported.schema, Layout::Packed);
    for (id, lengths) in lengths.iter().enumerate() {
        let (Slot::Message { stored, .. } | Slot::Union { stored, .. }) = &mut schema.slots[id]
        else {
            continue;
        };
        if random.once_in(3) {
            continue;
        }
        *stored = match brings {
            Brings::Any if random.once_in(2) => random_size(random),
            Brings::Any => near(random, lengths),
            _ => around(random, lengths),
        };
        if random.once_in(2) {
            schema
                .declarations
                .retain(|&declared| declared != id as u64);
        }
    }
}

/// One more field, of a message other than this slot, if there is one.
fn add_field(random: &mut Random, slot: u64, tree: Tree, slots: &mut [Slot]) {
    let others = slots.iter_mut().enumerate();
    let fields = others.filter_map(|(at, other)| match other {
        Slot::Message { fields, .. } if at as u64 != slot => Some(fields),
        _ => None,
    });
    let mut lists: Vec<&mut Vec<Field>> = fields.collect();
    if !lists.is_empty() {
        let list = random.below(lists.len() as u64) as usize;
        lists[list].push(field(0, tree));
    }
}

fn random_size(random: &mut Random) -> Stored {
    let (one, other) = (random.below(40), random.below(40));
    match random.below(4) {
        0 => Stored::Fixed(one),
        1 => Stored::Open(one),
        _ => Stored::Bounded(one, other),
    }
}

/// A size that encloses the lengths.
fn around(random: &mut Random, lengths: &Lengths) -> Stored {
    let Some((least, most)) = lengths.ends() else {
        let below = random.below(20);
        return match random.once_in(2) {
            true => Stored::Bounded(below + 1 + random.below(20), below),
            false => random_size(random),
        };
    };
    let least = match random.below(3) {
        0 => random.below(least + 1),
        _ => least,
    };
    let most = most + random.pick(&[0, 0, 1, 9]);
    match random.below(4) {
        0 => Stored::Open(least),
        _ if lengths.reaches_beyond() => Stored::Open(least),
        1 | 2 if least == most => Stored::Fixed(least),
        _ => Stored::Bounded(least, most),
    }
}

/// One bit too narrow, at one end.
fn near(random: &mut Random, lengths: &Lengths) -> Stored {
    let Some((least, most)) = lengths.ends() else {
        return random_size(random);
    };
    match random.below(3) {
        0 => Stored::Open(least + 1),
        1 => Stored::Bounded(least + 1, most.max(least + 1)),
        _ => Stored::Bounded(least.min(most.saturating_sub(1)), most.saturating_sub(1)),
    }
}
