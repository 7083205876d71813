//! Types, expressions and encodings at the limit of 32 levels.

use super::bounds::{add, Boundary};
use crate::format::Edition;
use crate::model::{
    field, fixed, generic, pair, wrap, Encoding, Field, Impl, Schema, Slot, Stored, Tree, MAP,
    RESULT, VOID,
};

/// A way to add a level: what it is, the bytes from its kind to that of the
/// nested part, and to that of its first part.
type Nest = (&'static str, usize, usize, fn(Tree) -> Tree);

const NESTS: [Nest; 4] = [
    ("Optional", 1, 1, |part| wrap(4, part)),
    ("fixed array", 1, 1, |part| fixed(part, 2)),
    ("Map value", 3, 1, |part| pair(MAP, VOID, part)),
    ("Result ok", 1, 1, |part| pair(RESULT, part, VOID)),
];

const GENERIC: Nest = ("generic", 2, 2, |part| generic(0, part));

type Around = (&'static str, usize, fn(Tree) -> Slot);

/// Slots that hold one type, and the offset of its first kind.
const TYPES: [Around; 5] = [
    ("inner type", 4, |tree| Slot::Newtype {
        inner: tree,
        terminal: VOID,
    }),
    ("terminal type", 6, |tree| Slot::Newtype {
        inner: VOID,
        terminal: tree,
    }),
    ("field", 10, |tree| Slot::Message {
        span: (0, 0),
        stored: Stored::None,
        fields: vec![field(0, tree)],
    }),
    ("argument", 9, |tree| impl_of(vec![tree], VOID)),
    ("target", 9, |tree| impl_of(vec![], tree)),
];

/// Slots that hold one expression.
const EXPRESSIONS: [Around; 2] = [
    ("alias", 5, |tree| Slot::Alias {
        parameters: vec![],
        target: tree,
    }),
    ("trait field", 7, |tree| Slot::Trait {
        parameters: vec![],
        fields: vec![(0, tree)],
    }),
];

fn impl_of(arguments: Vec<Tree>, target: Tree) -> Slot {
    Slot::Impl(Impl {
        span: (0, 0),
        trait_number: 0,
        trait_span: None,
        arguments,
        target,
    })
}

/// One name, and one slot after it.
fn alone(slot: Slot, edition: Edition) -> Vec<u8> {
    let schema = Schema {
        names: vec![0],
        slots: vec![slot],
        declarations: vec![],
    };
    schema.bytes(edition)
}

/// Types and expressions of 31 to 34 levels.
pub fn levels(all: &mut Vec<Boundary>, edition: Edition) {
    for around in TYPES {
        for nest in NESTS {
            nested(all, around, nest, edition);
        }
        let kind_17 = nested_image(around, NESTS[0], Tree::Qualified(0), 33, edition);
        let place = (around.1 + 32) as u64;
        add(
            all,
            format!("{} kind 17", around.0),
            kind_17,
            Some((4, place)),
        );
    }
    for around in EXPRESSIONS {
        for nest in NESTS.into_iter().chain([GENERIC]) {
            nested(all, around, nest, edition);
        }
        let kind_18 = nested_image(around, NESTS[0], generic(0, VOID), 33, edition);
        let place = (around.1 + 32) as u64;
        add(
            all,
            format!("{} kind 18", around.0),
            kind_18,
            Some((5, place)),
        );
    }
}

/// `levels` levels, the last being `leaf`.
fn nested_image(
    around: Around,
    nest: Nest,
    leaf: Tree,
    levels: usize,
    edition: Edition,
) -> Vec<u8> {
    let tree = (1..levels).fold(leaf, |tree, _| nest.3(tree));
    alone(around.2(tree), edition)
}

fn nested(all: &mut Vec<Boundary>, around: Around, nest: Nest, edition: Edition) {
    // Level 33 is met at the first part of what stands at level 32.
    let place = around.1 + 31 * nest.1 + nest.2;
    for levels in 31..=34 {
        let what = format!("{} {} at {levels} levels", around.0, nest.0);
        let image = nested_image(around, nest, VOID, levels, edition);
        let refused = (levels > 32).then_some((5, place as u64));
        if levels == 33 {
            let cut = image[..place].to_vec();
            add(all, format!("{what}, cut"), cut, Some((2, place as u64)));
        }
        add(all, what, image, refused);
    }
}

/// Delta in Delta; the type after it begins its own levels.
pub fn encoding_levels(all: &mut Vec<Boundary>, edition: Edition) {
    for levels in 31..=34 {
        let deep = (1..32).fold(VOID, |tree, _| wrap(4, tree));
        let encoded = Field {
            encoding: Encoding {
                deltas: levels - 1,
                last: 1,
            },
            ..field(0, deep)
        };
        let slot = Slot::Message {
            span: (0, 0),
            stored: Stored::None,
            fields: vec![encoded],
        };
        let image = alone(slot, edition);
        let refused = (levels > 32).then_some((5, 9 + 32));
        add(all, format!("encoding at {levels} levels"), image, refused);
    }
}
