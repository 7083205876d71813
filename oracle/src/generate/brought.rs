//! Sizes that images bring: left out, and put in where the head board refuses
//! them.

use super::additions::as_it_is;
use super::edges::edges;
use super::findings::{endless, many};
use super::first::{by_product, by_sum};
use super::loops::{aliases, newtypes};
use super::schemas::{schema, Style};
use super::traits::conformance;
use super::Emit;
use crate::format::{Entry, SLOT_LIMIT};
use crate::model::{declared, field, message, union, Schema, Slot, Stored, Tree};
use crate::random::Random;

/// Leaves out all sizes that a schema brings.
pub fn bring_nothing(schema: &mut Schema) {
    for slot in &mut schema.slots {
        if let Some(stored) = stored_in(slot) {
            *stored = Stored::None;
        }
    }
}

fn stored_in(slot: &mut Slot) -> Option<&mut Stored> {
    match slot {
        Slot::Message { stored, .. } | Slot::Union { stored, .. } => Some(stored),
        _ => None,
    }
}

/// A schema that would be refused otherwise, have findings or be accepted, in
/// which a few slots bring a size.
pub fn brought(random: &mut Random, entry: Entry, emit: Emit<'_>) {
    let mut schema = otherwise(random);
    bring_nothing(&mut schema);
    let lowest = bring(random, &mut schema);
    let kept = match random.below(3) {
        0 => true,
        1 => false,
        _ => {
            name(&mut schema, lowest);
            false
        }
    };
    if !kept {
        schema.declarations.retain(|&declared| declared != lowest);
    }
    emit(&as_it_is(random, schema, entry.edition).bytes);
}

fn otherwise(random: &mut Random) -> Schema {
    let style = Style {
        valid: random.once_in(2),
        stored: false,
    };
    match random.below(10) {
        0 => newtypes(random),
        1 => aliases(random),
        2 => edges(random),
        3 => past_limit(by_sum()),
        4 => past_limit(by_product()),
        5 => endless(random),
        6 => conformance(random),
        7 if random.once_in(10) => many(random),
        _ => schema(random, style),
    }
}

fn past_limit(tree: Tree) -> Schema {
    declared(vec![0], vec![message(0, vec![field(0, tree)])])
}

/// Lets one to three slots bring a size; answers the lowest. Where there is none
/// for it, and at times where there is, one is added.
fn bring(random: &mut Random, schema: &mut Schema) -> u64 {
    let room = (schema.slots.len() as u64) < SLOT_LIMIT - 1;
    let mut slots = owners(schema);
    if room && (slots.is_empty() || random.once_in(2)) {
        let slot = schema.slots.len() as u64;
        let kinds = [message(slot, vec![]), union(vec![]), union(vec![vec![]])];
        let one = random.pick(&kinds);
        schema.slots.push(one);
        schema.declarations.truncate(1_000);
        schema.declarations.push(slot);
        slots = random.pick(&[vec![slot], owners(schema)]);
    }
    random.shuffle(&mut slots);
    slots.truncate(1 + random.below(3) as usize);
    for &slot in &slots {
        if let Some(stored) = stored_in(&mut schema.slots[slot as usize]) {
            *stored = size(random);
        }
    }
    slots.into_iter().min().unwrap_or(0)
}

/// The messages and unions.
fn owners(schema: &Schema) -> Vec<u64> {
    let slots = (0..).zip(&schema.slots);
    let owners = slots.filter(|(_, one)| matches!(one, Slot::Message { .. } | Slot::Union { .. }));
    owners.map(|(slot, _)| slot).collect()
}

/// A size of any kind, ordered or not.
fn size(random: &mut Random) -> Stored {
    let (one, other) = (random.uneven() >> 1, random.uneven() >> 1);
    random.pick(&[
        Stored::Fixed(one),
        Stored::Open(one),
        Stored::Bounded(one, other),
    ])
}

/// A declared message, the last slot, has a field of the slot.
fn name(schema: &mut Schema, slot: u64) {
    if schema.names.is_empty() {
        schema.names.push(0);
    }
    let last = schema.slots.len() as u64;
    if last < SLOT_LIMIT {
        let naming = message(last, vec![field(0, Tree::Named(slot))]);
        schema.slots.push(naming);
        schema.declarations.truncate(1_000);
        schema.declarations.push(last);
    }
}
