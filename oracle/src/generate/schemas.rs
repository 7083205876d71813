//! Random schemas with slots of all kinds.

use super::trees::{encoding, field, tree, Pool};
use crate::model::{live, Field, Impl, Schema, Slot, Stored, Tree};
use crate::random::Random;

/// What a random schema may do.
#[derive(Debug, Clone, Copy)]
pub struct Style {
    /// Keep clear of refusals 7 to 9.
    pub valid: bool,
    /// Bring stored sizes.
    pub stored: bool,
}

/// Slot kinds as often as they are drawn.
const KINDS: [u64; 16] = [0, 1, 1, 1, 1, 2, 3, 4, 4, 5, 5, 6, 7, 7, 8, 9];

/// A schema of a few slots, now and then of many.
pub fn schema(random: &mut Random, style: Style) -> Schema {
    let slots = match random.below(20) {
        0 => random.below(60),
        1 => 0,
        _ => 1 + random.below(7),
    };
    schema_of(random, style, slots)
}

pub fn schema_of(random: &mut Random, style: Style, slots: u64) -> Schema {
    let kinds: Vec<u64> = (0..slots).map(|_| random.pick(&KINDS)).collect();
    let names = match random.below(12) {
        0 => 0,
        1 => 120 + random.below(60),
        _ => 1 + random.below(6),
    };
    let finds: Vec<u64> = (0..names).map(|_| find(random, style, &kinds)).collect();
    let maker = Maker {
        style,
        kinds: &kinds,
        finds: &finds,
    };
    let slots = (0..slots).map(|slot| maker.slot(random, slot)).collect();
    Schema {
        declarations: declarations(random, kinds.len() as u64),
        names: finds,
        slots,
    }
}

fn find(random: &mut Random, style: Style, kinds: &[u64]) -> u64 {
    if kinds.is_empty() || random.once_in(3) {
        return 0;
    }
    let slot = random.below(kinds.len() as u64 + u64::from(!style.valid));
    if style.valid && kinds[slot as usize] == 0 {
        return 0;
    }
    slot + 1
}

/// All in order, some shuffled, some again, some that point nowhere.
pub fn declarations(random: &mut Random, slots: u64) -> Vec<u64> {
    let mut list: Vec<u64> = (0..slots).collect();
    if random.once_in(2) {
        random.shuffle(&mut list);
        list.truncate(random.below(slots + 1) as usize);
    }
    if random.once_in(3) && slots > 0 {
        for _ in 0..=random.below(3) {
            list.push(random.below(slots));
        }
    }
    if random.once_in(6) {
        list.push(random.pick(&[slots, slots + 1, 512, u64::from(u32::MAX)]));
    }
    list
}

/// None, or a size of any kind, ordered or not.
pub fn stored(random: &mut Random) -> Stored {
    let (one, other) = (random.uneven() >> 1, random.uneven() >> 1);
    match random.below(5) {
        0 => Stored::None,
        1 => Stored::Fixed(one),
        2 => Stored::Open(one),
        _ => Stored::Bounded(one, other),
    }
}

struct Maker<'a> {
    style: Style,
    kinds: &'a [u64],
    finds: &'a [u64],
}

impl Maker<'_> {
    fn slot(&self, random: &mut Random, slot: u64) -> Slot {
        let types = self.types();
        match self.kinds[slot as usize] {
            0 => Slot::Empty,
            1 => Slot::Message {
                span: span(random),
                stored: self.stored(random),
                fields: self.fields(random),
            },
            2 => Slot::Enum {
                backing: random.below(9).saturating_sub(4),
                non_exhaustive: random.below(2),
                bits: random.below(256),
                ordinals: live(ordinals(random)),
            },
            3 => Slot::Flags {
                bytes: random.below(256),
                bits: live(ordinals(random)),
            },
            4 => Slot::Union {
                stored: self.stored(random),
                variants: (0..random.below(4)).map(|_| self.fields(random)).collect(),
            },
            5 => Slot::Newtype {
                inner: tree(random, 4, &types),
                terminal: tree(random, 4, &self.terminals(slot)),
            },
            6 => Slot::Config,
            7 => Slot::Alias {
                parameters: self.parameters(random),
                target: tree(random, 4, &self.targets(slot)),
            },
            8 => self.trait_slot(random),
            _ => Slot::Impl(self.impl_slot(random)),
        }
    }

    fn names(&self) -> u64 {
        self.finds.len() as u64
    }

    /// Types over all slots, and ids that find nothing.
    fn types(&self) -> Pool {
        let slots = self.kinds.len() as u64;
        let mut named: Vec<u64> = (0..slots).collect();
        named.extend([slots, u64::from(u32::MAX)]);
        Pool::types(named, self.names())
    }

    /// Types for a newtype's terminal, without a loop if need be.
    fn terminals(&self, slot: u64) -> Pool {
        let mut pool = self.types();
        if self.style.valid {
            pool.named
                .retain(|&id| id < slot || self.kinds.get(id as usize) != Some(&5));
        }
        pool
    }

    /// Expressions for an alias's target, without a loop if need be.
    fn targets(&self, slot: u64) -> Pool {
        let mut pool = Pool::expressions(self.names(), (0..self.names()).collect());
        if self.style.valid {
            pool.generics.retain(|&name| {
                let find = self.finds[name as usize];
                find == 0 || find <= slot || self.kinds[find as usize - 1] != 7
            });
        }
        pool
    }

    fn stored(&self, random: &mut Random) -> Stored {
        if self.style.stored && random.once_in(2) {
            stored(random)
        } else {
            Stored::None
        }
    }

    fn fields(&self, random: &mut Random) -> Vec<Field> {
        if self.names() == 0 {
            return Vec::new();
        }
        let types = self.types();
        let count = random.below(4);
        (0..count).map(|_| field(random, 5, &types)).collect()
    }

    fn parameters(&self, random: &mut Random) -> Vec<u64> {
        if self.names() == 0 {
            return Vec::new();
        }
        let count = random.below(3);
        (0..count).map(|_| random.below(self.names())).collect()
    }

    fn trait_slot(&self, random: &mut Random) -> Slot {
        let pool = Pool::expressions(self.names(), (0..self.names()).collect());
        let count = if self.names() == 0 {
            0
        } else {
            random.below(4)
        };
        let parameters = self.parameters(random);
        let fields = (0..count).map(|_| (random.below(pool.names), tree(random, 4, &pool)));
        Slot::Trait {
            fields: fields.collect(),
            parameters,
        }
    }

    fn impl_slot(&self, random: &mut Random) -> Impl {
        let types = self.types();
        let count = random.below(3);
        Impl {
            span: span(random),
            trait_number: match random.below(8) {
                0 => 0,
                1 => u64::from(u32::MAX),
                _ => random.below(self.kinds.len() as u64 + 2),
            },
            trait_span: random.once_in(2).then(|| span(random)),
            arguments: (0..count).map(|_| tree(random, 3, &types)).collect(),
            target: if random.once_in(4) {
                tree(random, 3, &types)
            } else {
                Tree::Named(random.pick(&types.named))
            },
        }
    }
}

pub fn span(random: &mut Random) -> (u64, u64) {
    let most = u64::from(u32::MAX);
    (random.uneven() & most, random.uneven() & most)
}

pub fn ordinals(random: &mut Random) -> Vec<u64> {
    let count = random.below(4);
    (0..count).map(|_| ordinal(random)).collect()
}

/// Near a power of two, where widths change, or near the flags' steps.
pub fn ordinal(random: &mut Random) -> u64 {
    let power = 1u64 << random.below(33);
    let near = power - 1 + random.below(3);
    let plain = random.pick(&[0, 1, 7, 8, 15, 16, 31, 32]);
    random.pick(&[near, plain]).min(u64::from(u32::MAX))
}

/// A random field encoding for shapes built by hand.
pub fn with_encoding(random: &mut Random, mut field: Field) -> Field {
    field.encoding = encoding(random);
    field
}
