//! Images that both editions accept, with other contents: what edition two
//! takes for a limit or a retired count, edition one takes for something else.

use super::schemas::{declarations, ordinals};
use super::trees::{field, Pool};
use crate::model::{live, message, union, Schema, Slot, Tree, U32, U8};
use crate::random::Random;

const NAMES: u64 = 2;

/// A schema of edition one.
pub fn both(random: &mut Random) -> Schema {
    match random.once_in(2) {
        true => field_last(random),
        false => ordinals_before(random),
    }
}

/// One field, and it stands last: what edition two takes for its limit and for
/// the count of declarations, edition one takes for that count and for the
/// first declaration.
fn field_last(random: &mut Random) -> Schema {
    let mut slots = without_additions(random);
    let last = slots.len() as u64;
    let pool = Pool::types((0..=last + 1).collect(), NAMES);
    let field = field(random, 3, &pool);
    slots.push(match random.once_in(2) {
        true => message(last, vec![field]),
        false => union(vec![vec![], vec![field]]),
    });
    let mut declared = declarations(random, last + 1);
    declared.insert(0, declared.len() as u64);
    Schema {
        names: vec![0; NAMES as usize],
        slots,
        declarations: declared,
    }
}

/// Slots of these kinds, by their numbers after the kind.
fn bodies(random: &mut Random) -> (u64, Vec<u64>) {
    let [one, other] = [(); 2].map(|()| random.below(14));
    random.pick(&[
        (4, vec![0, 0]),
        (4, vec![1, one, 0]),
        (5, vec![0, one, 0, other]),
        (6, vec![]),
        (7, vec![0, 0, one]),
        (8, vec![0, 0]),
        (9, vec![one, other, 0, 0, 0, 3, one]),
    ])
}

/// Ordinals without retired ones, and a slot after them: edition one takes the
/// count of 0 for an empty slot, that slot's kind for the count of declarations
/// and all that follows for declarations.
fn ordinals_before(random: &mut Random) -> Schema {
    let mut slots = without_additions(random);
    let live = live(ordinals(random));
    slots.push(match random.once_in(2) {
        true => Slot::Enum {
            backing: random.below(5),
            non_exhaustive: random.below(2),
            bits: random.below(256),
            ordinals: live,
        },
        false => Slot::Flags {
            bytes: random.below(256),
            bits: live,
        },
    });
    slots.push(Slot::Empty);
    let (kind, mut numbers) = bodies(random);
    let left = kind - 1 - numbers.len() as u64;
    numbers.push(left);
    numbers.extend((0..left).map(|_| random.below(slots.len() as u64 + 1)));
    Schema {
        names: vec![],
        slots,
        declarations: numbers,
    }
}

/// A few slots that are the same in both editions.
fn without_additions(random: &mut Random) -> Vec<Slot> {
    let newtype = Slot::Newtype {
        inner: U8,
        terminal: U32,
    };
    let kinds = [
        Slot::Empty,
        Slot::Config,
        newtype,
        message(0, vec![]),
        union(vec![vec![]]),
        Slot::Alias {
            parameters: vec![],
            target: Tree::Semantic(0),
        },
    ];
    (0..random.below(4)).map(|_| random.pick(&kinds)).collect()
}
