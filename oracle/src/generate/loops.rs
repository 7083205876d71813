//! Schemas in which slots lead back to themselves, or nearly so.

use super::schemas::{declarations, with_encoding};
use super::trees::WRAPS;
use crate::model::{
    declared, field, fixed, generic, message, pair, union, wrap, Schema, Slot, Tree, ARRAY, MAP,
    OPTIONAL, RESULT, SET, U8, VOID,
};
use crate::random::Random;

/// Newtypes that name each other in terminals, some through messages, unions
/// or the elements of Array, Map and Set, which make no loop.
pub fn newtypes(random: &mut Random) -> Schema {
    let slots = slot_count(random);
    let list = (0..slots).map(|slot| {
        let terminal = references(random, slot, slots, followed);
        match random.below(8) {
            0 => message(slot, vec![field(0, terminal)]),
            1 => union(vec![vec![field(0, terminal)]]),
            2 => Slot::Newtype {
                inner: terminal,
                terminal: U8,
            },
            _ => Slot::Newtype {
                inner: Tree::Named(random.below(slots)),
                terminal,
            },
        }
    });
    let slots: Vec<Slot> = list.collect();
    Schema {
        names: vec![0],
        declarations: declarations(random, slots.len() as u64),
        slots,
    }
}

/// Aliases whose targets hold generics that find each other.
pub fn aliases(random: &mut Random) -> Schema {
    let slots = slot_count(random);
    let list = (0..slots).map(|slot| {
        if random.once_in(8) {
            return message(slot, vec![]);
        }
        let target = references(random, slot, slots, |random, name| match random.below(4) {
            0 => Tree::Named(name),
            1 => generic(name, Tree::Named(random.below(slots))),
            2 => {
                let other = random.below(slots);
                generic(other, wrap(ARRAY, generic(name, U8)))
            }
            _ => wrap(random.pick(&WRAPS), generic(name, U8)),
        });
        Slot::Alias {
            parameters: (0..random.below(3)).map(|_| random.below(slots)).collect(),
            target,
        }
    });
    let list: Vec<Slot> = list.collect();
    // Mostly the name with a slot's number finds it.
    let find = |name| if random.once_in(6) { 0 } else { name + 1 };
    declared((0..slots).map(find).collect(), list)
}

/// Messages and unions that hold each other, directly or not.
pub fn messages(random: &mut Random) -> Schema {
    let slots = 1 + random.below(6);
    let list = (0..slots).map(|slot| {
        let fields: Vec<_> = (0..random.below(4))
            .map(|_| {
                let id = random.below(slots + 1);
                let tree = if random.once_in(2) {
                    Tree::Named(id)
                } else {
                    any_wrapped(random, id)
                };
                with_encoding(random, field(0, tree))
            })
            .collect();
        match random.below(6) {
            0 => union(vec![fields, vec![]]),
            1 => Slot::Newtype {
                inner: Tree::Named(random.below(slots)),
                terminal: random.pick(&[U8, VOID, wrap(ARRAY, Tree::Named(slot))]),
            },
            _ => message(slot, fields),
        }
    });
    let slots: Vec<Slot> = list.collect();
    Schema {
        names: vec![0],
        declarations: declarations(random, slots.len() as u64),
        slots,
    }
}

/// Each message uses the next one several times, as do newtypes and aliases:
/// the check doubles its work at each step.
pub fn doubling(random: &mut Random) -> Schema {
    let most = random.pick(&[8, 40]);
    let slots = 2 + random.below(most);
    let kind = random.below(3);
    let list = (0..slots).map(|slot| {
        let next = Tree::Named(slot + 1);
        match kind {
            0 => message(slot, vec![field(0, next.clone()), field(0, next)]),
            1 => Slot::Newtype {
                inner: next.clone(),
                terminal: pair(RESULT, next.clone(), next),
            },
            _ => Slot::Alias {
                parameters: vec![0],
                target: pair(
                    MAP,
                    generic(slot + 1, next.clone()),
                    generic(slot + 1, next),
                ),
            },
        }
    });
    let mut slots: Vec<Slot> = list.collect();
    let users = doubling_users(slots.len() as u64);
    slots.extend(users);
    let names = slots.len() as u64 + 1;
    Schema {
        names: (0..names)
            .map(|name| if name < names - 1 { name + 1 } else { 0 })
            .collect(),
        declarations: declarations(random, slots.len() as u64),
        slots,
    }
}

/// A message, a trait and an impl that use slot 0.
fn doubling_users(slots: u64) -> [Slot; 3] {
    let impl_slot = crate::model::Impl {
        span: (1, 2),
        trait_number: slots + 2,
        trait_span: None,
        arguments: vec![],
        target: Tree::Named(slots),
    };
    [
        message(slots, vec![field(0, Tree::Named(0))]),
        Slot::Trait {
            parameters: vec![],
            fields: vec![(0, generic(0, U8))],
        },
        Slot::Impl(impl_slot),
    ]
}

/// A long chain of messages or newtypes, each in a type of many levels. One
/// end is declared, or all from the far end on, so that no part is redone.
pub fn chain(random: &mut Random) -> Schema {
    let slots = 2 + random.below(300);
    let levels = random.below(31);
    let newtypes = random.once_in(2);
    let list = (0..slots).map(|slot| {
        let next = Tree::Named(slot + 1);
        let tree = (0..levels).fold(next, |tree, _| match random.below(3) {
            0 => wrap(OPTIONAL, tree),
            1 => fixed(tree, 1),
            _ => pair(RESULT, VOID, tree),
        });
        if newtypes {
            Slot::Newtype {
                inner: tree.clone(),
                terminal: tree,
            }
        } else {
            message(slot, vec![field(0, tree)])
        }
    });
    let mut slots: Vec<Slot> = list.collect();
    slots.push(message(0, vec![field(0, Tree::Named(0))]));
    let count = slots.len() as u64;
    Schema {
        names: vec![0],
        slots,
        declarations: random.pick(&[vec![count - 1], (0..count).rev().collect(), vec![0]]),
    }
}

fn slot_count(random: &mut Random) -> u64 {
    match random.below(60) {
        0 => 512,
        1 | 2 => 100 + random.below(100),
        _ => 1 + random.below(8),
    }
}

/// A tree of up to three references. Most lead to lower numbers, so that
/// about half of the schemas have no loop.
fn references(
    random: &mut Random,
    slot: u64,
    slots: u64,
    mut reference: impl FnMut(&mut Random, u64) -> Tree,
) -> Tree {
    let mut tree = U8;
    for _ in 0..random.below(4) {
        let to = if random.below(2 * slots) < 2 || slot == 0 {
            random.below(slots)
        } else {
            random.below(slot)
        };
        let one = reference(random, to);
        tree = if random.once_in(3) {
            one
        } else {
            pair(RESULT, tree, one)
        };
    }
    tree
}

/// A name in a wrapper that loops of newtypes mostly follow.
fn followed(random: &mut Random, id: u64) -> Tree {
    match random.below(12) {
        0 => wrap(ARRAY, Tree::Named(id)),
        1 => wrap(SET, Tree::Named(id)),
        2 => pair(MAP, Tree::Named(id), Tree::Named(id)),
        3 => fixed(Tree::Named(id), 0),
        4 => wrap(OPTIONAL, Tree::Named(id)),
        5 => wrap(10 + random.below(6), Tree::Named(id)),
        _ => Tree::Named(id),
    }
}

fn any_wrapped(random: &mut Random, id: u64) -> Tree {
    match random.below(6) {
        0 => fixed(Tree::Named(id), random.below(3)),
        1 => pair(MAP, Tree::Named(id), U8),
        2 => pair(RESULT, U8, Tree::Named(id)),
        _ => wrap(random.pick(&WRAPS), Tree::Named(id)),
    }
}

/// `count` newtypes in a ring: the worst loop to find.
pub fn newtype_ring(count: u64) -> Schema {
    let slots = (0..count).map(|slot| Slot::Newtype {
        inner: U8,
        terminal: Tree::Named((slot + 1) % count),
    });
    declared(vec![], slots.collect())
}

/// `count` newtypes, each naming the next ones: no loop, many ways.
pub fn newtype_order(count: u64, each: u64) -> Schema {
    let slots = (0..count).map(|slot| Slot::Newtype {
        inner: VOID,
        terminal: (slot + 1..count.min(slot + 1 + each))
            .fold(VOID, |tree, next| pair(RESULT, Tree::Named(next), tree)),
    });
    declared(vec![], slots.collect())
}

/// `count` aliases in a ring.
pub fn alias_ring(count: u64) -> Schema {
    let slots = (0..count).map(|slot| Slot::Alias {
        parameters: vec![],
        target: generic((slot + 1) % count, VOID),
    });
    declared((1..=count).collect(), slots.collect())
}
