//! Random types, expressions, encodings and fields.

use crate::model::{fixed, generic, pair, wrap, Encoding, Field, Tree, MAP, RESULT};
use crate::random::Random;

/// Kinds with one part, Fixed aside.
pub const WRAPS: [u64; 9] = [4, 5, 7, 10, 11, 12, 13, 14, 15];

/// What a tree may name.
#[derive(Debug, Clone, Default)]
pub struct Pool {
    /// Ids in types, names in expressions.
    pub named: Vec<u64>,
    /// Names are below this.
    pub names: u64,
    /// Names that a generic may have; none in types.
    pub generics: Vec<u64>,
    /// Whether qualified names may stand; false in types.
    pub qualified: bool,
}

impl Pool {
    /// Types over these ids.
    pub fn types(named: Vec<u64>, names: u64) -> Self {
        Self {
            named,
            names,
            ..Self::default()
        }
    }

    /// Expressions over all names, generics over some.
    pub fn expressions(names: u64, generics: Vec<u64>) -> Self {
        Self {
            named: (0..names).collect(),
            names,
            generics,
            qualified: names > 0,
        }
    }
}

/// A tree of at most `depth` levels.
pub fn tree(random: &mut Random, depth: u32, pool: &Pool) -> Tree {
    if depth <= 1 || random.below(5) < 2 {
        return leaf(random, pool);
    }
    match random.below(10) {
        0 => fixed(tree(random, depth - 1, pool), array_size(random)),
        1 | 2 => {
            let kind = random.pick(&[MAP, RESULT, RESULT]);
            let left = tree(random, depth - 1, pool);
            pair(kind, left, tree(random, depth - 1, pool))
        }
        3..=5 if !pool.generics.is_empty() => {
            let name = random.pick(&pool.generics);
            generic(name, tree(random, depth - 1, pool))
        }
        _ => {
            let kind = random.pick(&WRAPS);
            wrap(kind, tree(random, depth - 1, pool))
        }
    }
}

fn array_size(random: &mut Random) -> u64 {
    match random.below(6) {
        0 => 0,
        1 => random.uneven(),
        _ => random.below(5),
    }
}

fn leaf(random: &mut Random, pool: &Pool) -> Tree {
    match random.below(12) {
        0 => Tree::SubByte(random.below(2), random.below(256)),
        1 => Tree::Semantic(random.below(6)),
        2 if pool.names > 0 => {
            let count = random.below(4);
            Tree::Bits((0..count).map(|_| random.below(pool.names)).collect())
        }
        3 if pool.qualified => Tree::Qualified(random.below(pool.names)),
        4..=8 if !pool.named.is_empty() => Tree::Named(random.pick(&pool.named)),
        _ => Tree::Primitive(random.below(14)),
    }
}

/// A field; there is a name to take.
pub fn field(random: &mut Random, depth: u32, pool: &Pool) -> Field {
    Field {
        name: random.below(pool.names),
        encoding: encoding(random),
        tree: tree(random, depth, pool),
        limit: 0,
    }
}

pub fn encoding(random: &mut Random) -> Encoding {
    Encoding {
        deltas: if random.once_in(6) {
            random.below(4) as u32
        } else {
            0
        },
        last: random.below(9).saturating_sub(6),
    }
}
