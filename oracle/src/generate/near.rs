//! Types that are nearly a given one: one number off, one side, one level or
//! the kind.

use super::trees::WRAPS;
use crate::model::{fixed, pair, wrap, Tree, ARRAY, MAP, RESULT, U8};
use crate::random::Random;

pub const NOWHERE: u64 = u32::MAX as u64;
const ID_BITS: u64 = 32;

/// What a changed type may hold.
pub struct Near {
    /// Ids that stand for slots, and some that do not.
    pub ids: Vec<u64>,
    /// Names are below this.
    pub names: u64,
    /// Sizes of arrays stay small, or have up to 64 bits.
    pub small: bool,
}

impl Near {
    pub fn array_size(&self, random: &mut Random) -> u64 {
        match self.small {
            true => random.below(4),
            false => random.bits() >> random.below(64),
        }
    }

    /// A type that differs from this one in one place.
    pub fn near(&self, random: &mut Random, tree: &Tree) -> Tree {
        if random.once_in(2) {
            match tree {
                Tree::Wrap(kind, part) => return wrap(*kind, self.near(random, part)),
                Tree::Fixed(part, size) => return fixed(self.near(random, part), *size),
                Tree::Pair(kind, left, right) => {
                    return match random.once_in(2) {
                        true => pair(*kind, self.near(random, left), *right.clone()),
                        false => pair(*kind, *left.clone(), self.near(random, right)),
                    };
                }
                _ => {}
            }
        }
        match random.below(6) {
            0 => self.around(random, tree.clone()),
            1 => self.inner_or_other(random, tree),
            2 => self.other_kind(random, tree),
            _ => self.other_number(random, tree),
        }
    }

    /// One level more.
    pub fn around(&self, random: &mut Random, tree: Tree) -> Tree {
        match random.below(WRAPS.len() as u64 + 3) {
            0 => fixed(tree, self.array_size(random)),
            1 => pair(MAP, tree, U8),
            2 => pair(RESULT, U8, tree),
            _ => wrap(random.pick(&WRAPS), tree),
        }
    }

    /// One level less.
    fn inner_or_other(&self, random: &mut Random, tree: &Tree) -> Tree {
        match tree {
            Tree::Wrap(_, part) | Tree::Fixed(part, _) => *part.clone(),
            Tree::Pair(_, left, right) => *random.pick(&[left, right]).clone(),
            _ => self.other_kind(random, tree),
        }
    }

    /// Another kind with the same parts.
    fn other_kind(&self, random: &mut Random, tree: &Tree) -> Tree {
        match tree {
            Tree::Wrap(kind, part) => match random.below(WRAPS.len() as u64) {
                0 => fixed(*part.clone(), self.array_size(random)),
                other => {
                    let others = WRAPS.into_iter().filter(|other| other != kind);
                    let others: Vec<u64> = others.collect();
                    wrap(others[other as usize - 1], *part.clone())
                }
            },
            Tree::Fixed(part, _) => wrap(ARRAY, *part.clone()),
            Tree::Pair(kind, left, right) => match random.once_in(4) {
                true => pair(*kind, *right.clone(), *left.clone()),
                false => pair(MAP + RESULT - kind, *left.clone(), *right.clone()),
            },
            Tree::Primitive(which) => random.pick(&[
                Tree::Named(*which),
                Tree::Semantic(which % 6),
                Tree::SubByte(0, *which),
            ]),
            Tree::Named(_) => random.pick(&[U8, Tree::Semantic(0), Tree::Bits(vec![])]),
            _ => match random.once_in(2) {
                true => Tree::Primitive(random.below(14)),
                false => Tree::Named(random.pick(&self.ids)),
            },
        }
    }

    /// Another number of the same kind, if it has numbers.
    fn other_number(&self, random: &mut Random, tree: &Tree) -> Tree {
        match tree {
            Tree::Primitive(which) => Tree::Primitive((which + 1 + random.below(13)) % 14),
            Tree::SubByte(signed, bits) => match random.once_in(2) {
                true => Tree::SubByte(1 - signed, *bits),
                false => Tree::SubByte(*signed, bits ^ (1 << random.below(8))),
            },
            Tree::Semantic(which) => Tree::Semantic((which + 1 + random.below(5)) % 6),
            Tree::Named(id) => Tree::Named(match random.below(3) {
                0 if *id != NOWHERE => NOWHERE,
                1 => id ^ 1,
                _ => id ^ (1 << random.below(ID_BITS)),
            }),
            Tree::Fixed(part, size) => {
                let bit = random.below(if self.small { 2 } else { 64 });
                fixed(*part.clone(), size ^ (1 << bit))
            }
            Tree::Bits(names) => Tree::Bits(self.other_names(random, names.clone())),
            _ => self.other_kind(random, tree),
        }
    }

    /// One name replaced, taken out or put in, or the first two swapped.
    fn other_names(&self, random: &mut Random, mut names: Vec<u64>) -> Vec<u64> {
        let at = random.below(names.len() as u64 + 1) as usize;
        let name = random.below(self.names);
        match random.below(4) {
            0 if at < names.len() => names[at] = name,
            1 if at < names.len() => drop(names.remove(at)),
            2 if names.len() > 1 => names.swap(0, 1),
            _ => names.insert(at, name),
        }
        names
    }
}
