//! Sizes at the limit 2^63 - 1, one less and one more, by each operation.

use crate::format::SIZE_LIMIT;
use crate::model::{
    field, fixed, message, pair, union, wrap, Field, Schema, Slot, Stored, Tree, ARRAY, BOOL,
    OPTIONAL, RESULT, VOID,
};
use crate::random::Random;

/// Kinds with one part, and how often it counts.
pub const FACTORS: [(u64, u64); 6] = [(10, 2), (11, 3), (12, 4), (13, 4), (14, 9), (15, 16)];

/// A message or union whose size comes near the limit.
pub fn near_limit(random: &mut Random) -> Schema {
    let mut stores = Stores { slots: Vec::new() };
    let first = main_slot(random, &mut stores);
    let second = main_slot(random, &mut stores);
    let mut slots = vec![first, second];
    slots.extend(stores.slots);
    let mut declarations = vec![0, 1];
    if random.once_in(4) {
        declarations.reverse();
    }
    // Now and then a stored size is worked out anew, or an outer slot first.
    if random.once_in(4) {
        let slot = random.below(slots.len() as u64);
        declarations.insert(random.below(2) as usize, slot);
    }
    Schema {
        names: vec![0],
        slots,
        declarations,
    }
}

/// Undeclared messages with stored sizes, numbered from 2.
struct Stores {
    slots: Vec<Slot>,
}

impl Stores {
    fn add(&mut self, stored: Stored) -> Tree {
        let slot = 2 + self.slots.len() as u64;
        self.slots.push(Slot::Message {
            span: (0, 0),
            stored,
            fields: vec![field(0, BOOL)],
        });
        Tree::Named(slot)
    }
}

fn main_slot(random: &mut Random, stores: &mut Stores) -> Slot {
    let fields = fields(random, stores);
    if random.once_in(2) {
        return message(0, fields);
    }
    let other = match random.below(3) {
        0 => vec![],
        1 => vec![field(0, BOOL)],
        _ => vec![field(0, bits(random, stores, SIZE_LIMIT))],
    };
    let mut variants = vec![fields, other];
    random.shuffle(&mut variants);
    union(variants)
}

fn fields(random: &mut Random, stores: &mut Stores) -> Vec<Field> {
    let mut fields = match random.below(3) {
        0 => sum(random, stores),
        _ => vec![field(0, operation(random, stores))],
    };
    if random.once_in(4) {
        fields.push(field(0, random.pick(&[wrap(ARRAY, VOID), VOID, BOOL])));
        random.shuffle(&mut fields);
    }
    fields
}

/// Two fields that add up to the limit, or one off, or off by a union's 8.
fn sum(random: &mut Random, stores: &mut Stores) -> Vec<Field> {
    let first = random.bits() >> (1 + random.below(63));
    let whole = SIZE_LIMIT - random.pick(&[0, 1, 7, 8, 9]) + random.below(3);
    let second = whole.saturating_sub(first);
    [first, second]
        .map(|size| field(0, bits(random, stores, size)))
        .to_vec()
}

fn operation(random: &mut Random, stores: &mut Stores) -> Tree {
    match random.below(5) {
        0 => {
            let near = near(random, SIZE_LIMIT);
            wrap(OPTIONAL, bits(random, stores, near))
        }
        1 => {
            let near = near(random, SIZE_LIMIT);
            let one = bits(random, stores, near);
            let other = random.pick(&[BOOL, VOID, one.clone(), wrap(ARRAY, VOID)]);
            let [left, right] = if random.once_in(2) {
                [one, other]
            } else {
                [other, one]
            };
            pair(RESULT, left, right)
        }
        2 => product(random, stores),
        3 => {
            let near = near(random, SIZE_LIMIT);
            bits(random, stores, near)
        }
        _ => {
            let (kind, factor) = random.pick(&FACTORS);
            let near = near(random, SIZE_LIMIT / factor);
            wrap(kind, bits(random, stores, near))
        }
    }
}

fn product(random: &mut Random, stores: &mut Stores) -> Tree {
    let size = random.pick(&[0, 1, 2, 3, 1 << 31, u64::MAX, SIZE_LIMIT]);
    let element = SIZE_LIMIT.checked_div(size).unwrap_or(SIZE_LIMIT);
    let near = near(random, element);
    fixed(bits(random, stores, near), size)
}

fn near(random: &mut Random, value: u64) -> u64 {
    (value + random.below(3)).saturating_sub(1)
}

/// A type of `size` bits: a fixed array, or a stored size of each kind.
fn bits(random: &mut Random, stores: &mut Stores, size: u64) -> Tree {
    let size_stored = size.min(SIZE_LIMIT);
    match random.below(6) {
        0 => stores.add(Stored::Fixed(size_stored)),
        1 => stores.add(Stored::Open(size_stored)),
        2 => stores.add(Stored::Bounded(size_stored, size_stored)),
        3 => stores.add(Stored::Bounded(random.uneven() >> 1, size_stored)),
        4 => stores.add(Stored::Bounded(size_stored, random.uneven() >> 1)),
        _ => fixed(BOOL, size),
    }
}
