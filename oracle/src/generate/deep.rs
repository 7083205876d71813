//! Chains of slots that make the check call itself most often: up to 512
//! slots, each naming the next one below 31 wrappers.

use crate::model::{
    field, fixed, message, pair, union, wrap, Encoding, Field, Schema, Slot, Tree, MAP, OPTIONAL,
    RESULT, U8, VOID,
};
use crate::random::Random;

/// What a chain is made of.
#[derive(Debug, Clone, Copy, PartialEq, Eq)]
pub enum Link {
    Message,
    Union,
    Newtype,
    /// A message and a newtype in turns.
    Behind,
}

/// What stands around the next name.
#[derive(Debug, Clone, Copy, PartialEq, Eq)]
pub enum Wrapper {
    Optional,
    Fixed,
    Result,
    /// An Optional below as many Delta encodings as there may be.
    Deltas,
}

#[derive(Debug, Clone, Copy)]
pub struct Chain {
    pub slots: u64,
    pub link: Link,
    pub wrapper: Wrapper,
    pub levels: u32,
}

impl Chain {
    /// Slot 0 names none, and each other slot the one before it.
    pub fn slots(&self) -> Vec<Slot> {
        (0..self.slots).map(|slot| self.slot(slot)).collect()
    }

    /// Only the last slot is declared, all others are below it.
    pub fn below_one(&self) -> Schema {
        self.declaring(vec![self.slots - 1])
    }

    /// The last slot is declared first: it needs all others.
    pub fn in_reverse(&self) -> Schema {
        self.declaring((0..self.slots).rev().collect())
    }

    pub fn declaring(&self, declarations: Vec<u64>) -> Schema {
        Schema {
            names: vec![0],
            slots: self.slots(),
            declarations,
        }
    }

    fn slot(&self, slot: u64) -> Slot {
        let tree = match slot.checked_sub(1) {
            None => U8,
            Some(next) => (0..self.levels).fold(Tree::Named(next), |tree, _| self.wrapped(tree)),
        };
        let link = match self.link {
            Link::Behind if slot.is_multiple_of(2) => Link::Newtype,
            Link::Behind => Link::Message,
            // A newtype alone has no size; the last slot asks for it.
            Link::Newtype if slot + 1 == self.slots => Link::Message,
            link => link,
        };
        match link {
            Link::Union => union(vec![vec![self.field(tree)]]),
            Link::Newtype => Slot::Newtype {
                inner: slot.checked_sub(1).map_or(U8, Tree::Named),
                terminal: tree,
            },
            _ => message(slot, vec![self.field(tree)]),
        }
    }

    fn wrapped(&self, tree: Tree) -> Tree {
        match self.wrapper {
            Wrapper::Optional | Wrapper::Deltas => wrap(OPTIONAL, tree),
            Wrapper::Fixed => fixed(tree, 1),
            Wrapper::Result => pair(RESULT, VOID, tree),
        }
    }

    fn field(&self, tree: Tree) -> Field {
        let deltas = if self.wrapper == Wrapper::Deltas {
            31
        } else {
            0
        };
        Field {
            encoding: Encoding { deltas, last: 0 },
            ..field(0, tree)
        }
    }
}

/// Messages that name the first newtype of a chain, whose last one names all
/// the messages: each message goes through the whole chain again, so that the
/// calls stand deeper than there are slots. At most 30 messages.
pub fn through_again(messages: u64) -> Schema {
    let wrapped = |id| (0..31).fold(Tree::Named(id), |tree, _| wrap(OPTIONAL, tree));
    let slots = (0..512).map(|slot| match slot {
        _ if slot < messages => message(slot, vec![field(0, wrapped(messages))]),
        511 => Slot::Newtype {
            inner: U8,
            terminal: (0..messages).fold(VOID, |tree, id| pair(RESULT, tree, Tree::Named(id))),
        },
        _ => Slot::Newtype {
            inner: U8,
            terminal: wrapped(slot + 1),
        },
    });
    Schema {
        names: vec![0],
        slots: slots.collect(),
        declarations: vec![0],
    }
}

/// Messages, each with a map of one entry at most, whose value is the next message
/// below so many wrappers, 30 at most; for edition two, where the value is worked out.
/// The last one is declared.
pub fn through_entries(messages: u64, levels: u32) -> Schema {
    let slots = (0..messages).map(|slot| match slot.checked_sub(1) {
        None => message(slot, vec![field(0, U8)]),
        Some(next) => {
            let value = (0..levels).fold(Tree::Named(next), |tree, _| wrap(OPTIONAL, tree));
            let entries = Field {
                limit: 1,
                ..field(0, pair(MAP, VOID, value))
            };
            message(slot, vec![entries])
        }
    });
    Schema {
        names: vec![0],
        slots: slots.collect(),
        declarations: vec![messages - 1],
    }
}

/// Messages, each with the next one as its field, that stand in no order of
/// slots: 0, 511, 1, 510 and so on. Only then the walk for endless types is
/// made, and it goes through all of them.
pub fn in_no_order() -> Schema {
    let place = |at: u64| match at % 2 {
        0 => at / 2,
        _ => 511 - at / 2,
    };
    let mut slots = vec![Slot::Empty; 512];
    for at in 0..512 {
        let next = match at {
            511 => U8,
            _ => Tree::Named(place(at + 1)),
        };
        slots[place(at) as usize] = message(at, vec![field(0, next)]);
    }
    Schema {
        names: vec![0],
        slots,
        declarations: vec![0],
    }
}

/// A deep chain; few turns, since each works out what is below it anew.
pub fn deep(random: &mut Random) -> Schema {
    let chain = Chain {
        slots: random.pick(&[512, 511, 300, 100]),
        link: random.pick(&[Link::Message, Link::Union, Link::Newtype, Link::Behind]),
        wrapper: random.pick(&[
            Wrapper::Optional,
            Wrapper::Fixed,
            Wrapper::Result,
            Wrapper::Deltas,
        ]),
        levels: random.pick(&[31, 31, 31, 7, 0]),
    };
    let turns = 1 + random.below(6);
    let last = chain.slots - 1;
    match random.below(5) {
        4 => through_again(1 + random.below(4)),
        0 => chain.below_one(),
        // From slot 0 on, no slot is worked out twice.
        1 => chain.declaring((0..chain.slots).collect()),
        2 => chain.declaring((0..turns).map(|turn| last - turn).collect()),
        _ => chain.declaring((0..turns).map(|_| random.below(chain.slots)).collect()),
    }
}
