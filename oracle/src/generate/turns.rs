//! Slots declared again and again, so that each turn begins with the sizes
//! that the turns before it stored.

use super::schemas::stored;
use super::trees::{encoding, WRAPS};
use crate::model::{field, fixed, message, pair, wrap, Field, Schema, Slot, Tree, BOOL, RESULT};
use crate::random::Random;

/// Messages and unions over each other, with up to 200 turns. Sizes double or
/// more from turn to turn, so that some pass the limit only at a late one.
pub fn taken_again(random: &mut Random) -> Schema {
    let slots = 2 + random.below(4);
    let doubling = random.once_in(2);
    let list = (0..slots).map(|slot| slot_of(random, slot, slots, doubling));
    let list: Vec<Slot> = list.collect();
    let turns = random.pick(&[3, 12, 60, 200]);
    Schema {
        names: vec![0],
        slots: list,
        declarations: (0..turns)
            .map(|turn| turn_of(random, turn, slots))
            .collect(),
    }
}

/// Round after round, with some turns out of order or nowhere.
fn turn_of(random: &mut Random, turn: u64, slots: u64) -> u64 {
    match random.below(12) {
        0 => random.below(slots),
        1 => random.pick(&[slots, 512, u64::from(u32::MAX)]),
        _ => turn % slots,
    }
}

fn slot_of(random: &mut Random, slot: u64, slots: u64, doubling: bool) -> Slot {
    let fields = if doubling {
        doubled(random, (slot + 1) % slots)
    } else {
        (0..random.below(4)).map(|_| any(random, slots)).collect()
    };
    let size = match doubling {
        true => crate::model::Stored::Fixed(random.below(3)),
        false => stored(random),
    };
    if !doubling && random.once_in(4) {
        let variants = vec![fields, vec![any(random, slots)]];
        return Slot::Union {
            stored: size,
            variants,
        };
    }
    match message(slot, fields) {
        Slot::Message { span, fields, .. } => Slot::Message {
            span,
            stored: size,
            fields,
        },
        other => other,
    }
}

/// The next slot, two or three times over.
fn doubled(random: &mut Random, next: u64) -> Vec<Field> {
    let next = Tree::Named(next);
    match random.below(4) {
        0 => vec![field(0, fixed(next, 2))],
        1 => vec![field(0, wrap(11, next))],
        2 => vec![field(0, next.clone()), field(0, next), field(0, BOOL)],
        _ => vec![field(0, next.clone()), field(0, next)],
    }
}

fn any(random: &mut Random, slots: u64) -> Field {
    let name = Tree::Named(random.below(slots + 1));
    let tree = match random.below(5) {
        0 => wrap(random.pick(&WRAPS), name),
        1 => fixed(name, random.below(4)),
        2 => pair(RESULT, name, Tree::Named(random.below(slots))),
        _ => name,
    };
    let mut field = field(0, tree);
    field.encoding = encoding(random);
    field
}
