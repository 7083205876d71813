//! The bytes of a schema, with the place and limit of each number.

use crate::format::{
    write_number, Edition, BACKING_LIMIT, BYTE_LIMIT, COUNT_LIMIT, DECLARATION_LIMIT,
    ENCODING_LIMIT, EXPRESSION_KIND_LIMIT, NAME_LIMIT, PRIMITIVE_LIMIT, SEMANTIC_LIMIT, SIZE_LIMIT,
    SLOT_KIND_LIMIT, SLOT_LIMIT, STORED_LIMIT, TYPE_KIND_LIMIT, U32_LIMIT,
};
use crate::model::{Field, Impl, Ordinals, Schema, Slot, Stored, Tree};

/// A number of a written image: where it begins and the greatest it may be.
#[derive(Debug, Clone, Copy, PartialEq)]
pub struct Number {
    pub at: usize,
    pub limit: u64,
    /// Edition two alone has it.
    pub added: bool,
}

/// A written image and all its numbers.
#[derive(Debug, Clone)]
pub struct Draft {
    pub bytes: Vec<u8>,
    pub numbers: Vec<Number>,
    edition: Edition,
    name_limit: u64,
}

impl Draft {
    pub fn new(schema: &Schema, edition: Edition) -> Self {
        let mut draft = Self {
            bytes: Vec::new(),
            numbers: Vec::new(),
            edition,
            name_limit: (schema.names.len() as u64).saturating_sub(1),
        };
        draft.number(schema.names.len() as u64, NAME_LIMIT);
        for &find in &schema.names {
            draft.number(find, SLOT_LIMIT);
        }
        draft.number(schema.slots.len() as u64, SLOT_LIMIT);
        for slot in &schema.slots {
            draft.slot(slot);
        }
        draft.number(schema.declarations.len() as u64, DECLARATION_LIMIT);
        for &slot in &schema.declarations {
            draft.number(slot, U32_LIMIT);
        }
        draft
    }

    fn number(&mut self, value: u64, limit: u64) {
        self.numbers.push(Number {
            at: self.bytes.len(),
            limit,
            added: false,
        });
        write_number(value, &mut self.bytes);
    }

    /// Writes what edition two adds.
    fn added(&mut self, write: impl FnOnce(&mut Self)) {
        if self.edition == Edition::One {
            return;
        }
        let first = self.numbers.len();
        write(self);
        for number in &mut self.numbers[first..] {
            number.added = true;
        }
    }

    fn name(&mut self, name: u64) {
        self.number(name, self.name_limit);
    }

    fn list<T>(&mut self, items: &[T], mut item: impl FnMut(&mut Self, &T)) {
        self.number(items.len() as u64, COUNT_LIMIT);
        for one in items {
            item(self, one);
        }
    }

    fn slot(&mut self, slot: &Slot) {
        self.number(kind_of(slot), SLOT_KIND_LIMIT);
        match slot {
            Slot::Empty | Slot::Config => {}
            Slot::Message {
                span,
                stored,
                fields,
            } => {
                self.span(*span);
                self.stored(stored);
                self.list(fields, Self::field);
            }
            Slot::Enum { .. } | Slot::Flags { .. } => self.width_slot(slot),
            Slot::Union { stored, variants } => {
                self.stored(stored);
                self.list(variants, |draft, fields| draft.list(fields, Self::field));
            }
            Slot::Newtype { inner, terminal } => {
                self.type_tree(inner);
                self.type_tree(terminal);
            }
            Slot::Alias { .. } | Slot::Trait { .. } => self.generic_slot(slot),
            Slot::Impl(body) => self.impl_slot(body),
        }
    }

    fn width_slot(&mut self, slot: &Slot) {
        match slot {
            Slot::Enum {
                backing,
                non_exhaustive,
                bits,
                ordinals,
            } => {
                self.number(*backing, BACKING_LIMIT);
                self.number(*non_exhaustive, 1);
                self.number(*bits, BYTE_LIMIT);
                self.ordinals(ordinals);
            }
            Slot::Flags { bytes, bits } => {
                self.number(*bytes, BYTE_LIMIT);
                self.ordinals(bits);
            }
            _ => {}
        }
    }

    fn ordinals(&mut self, ordinals: &Ordinals) {
        let one = |draft: &mut Self, &one: &u64| draft.number(one, U32_LIMIT);
        self.list(&ordinals.live, one);
        self.added(|draft| draft.list(&ordinals.retired, one));
    }

    fn generic_slot(&mut self, slot: &Slot) {
        match slot {
            Slot::Alias { parameters, target } => {
                self.list(parameters, |draft, &name| draft.name(name));
                self.expression(target);
            }
            Slot::Trait { parameters, fields } => {
                self.list(parameters, |draft, &name| draft.name(name));
                self.list(fields, |draft, (name, tree)| {
                    draft.name(*name);
                    draft.expression(tree);
                });
            }
            _ => {}
        }
    }

    fn impl_slot(&mut self, body: &Impl) {
        self.span(body.span);
        self.number(body.trait_number, U32_LIMIT);
        self.number(u64::from(body.trait_span.is_some()), 1);
        if let Some(span) = body.trait_span {
            self.span(span);
        }
        self.list(&body.arguments, |draft, tree| draft.type_tree(tree));
        self.type_tree(&body.target);
    }

    fn span(&mut self, (offset, length): (u64, u64)) {
        self.number(offset, U32_LIMIT);
        self.number(length, U32_LIMIT);
    }

    fn stored(&mut self, stored: &Stored) {
        let (kind, sizes) = match *stored {
            Stored::None => (0, vec![]),
            Stored::Fixed(bits) => (1, vec![bits]),
            Stored::Open(smallest) => (2, vec![smallest]),
            Stored::Bounded(smallest, largest) => (3, vec![smallest, largest]),
        };
        self.number(kind, STORED_LIMIT);
        for size in sizes {
            self.number(size, SIZE_LIMIT);
        }
    }

    fn field(&mut self, field: &Field) {
        self.name(field.name);
        for _ in 0..field.encoding.deltas {
            self.number(3, ENCODING_LIMIT);
        }
        self.number(field.encoding.last, ENCODING_LIMIT);
        self.type_tree(&field.tree);
        self.added(|draft| draft.number(field.limit, U32_LIMIT));
    }

    fn type_tree(&mut self, tree: &Tree) {
        self.tree(tree, TYPE_KIND_LIMIT, U32_LIMIT);
    }

    fn expression(&mut self, tree: &Tree) {
        self.tree(tree, EXPRESSION_KIND_LIMIT, self.name_limit);
    }

    /// Types and expressions differ in their kinds and in what a name is.
    fn tree(&mut self, tree: &Tree, kinds: u64, named: u64) {
        match tree {
            Tree::Primitive(which) => self.numbers(&[(0, kinds), (*which, PRIMITIVE_LIMIT)]),
            Tree::SubByte(signed, bits) => {
                self.numbers(&[(1, kinds), (*signed, 1), (*bits, BYTE_LIMIT)]);
            }
            Tree::Semantic(which) => self.numbers(&[(2, kinds), (*which, SEMANTIC_LIMIT)]),
            Tree::Named(which) => self.numbers(&[(3, kinds), (*which, named)]),
            Tree::Wrap(kind, part) => {
                self.number(*kind, kinds);
                self.tree(part, kinds, named);
            }
            Tree::Fixed(part, size) => {
                self.number(6, kinds);
                self.tree(part, kinds, named);
                self.number(*size, u64::MAX);
            }
            Tree::Pair(kind, left, right) => {
                self.number(*kind, kinds);
                self.tree(left, kinds, named);
                self.tree(right, kinds, named);
            }
            Tree::Bits(names) => {
                self.number(16, kinds);
                self.list(names, |draft, &name| draft.name(name));
            }
            Tree::Qualified(name) => self.numbers(&[(17, kinds), (*name, self.name_limit)]),
            Tree::Generic(name, argument) => {
                self.numbers(&[(18, kinds), (*name, self.name_limit)]);
                self.tree(argument, kinds, named);
            }
        }
    }

    fn numbers(&mut self, list: &[(u64, u64)]) {
        for &(value, limit) in list {
            self.number(value, limit);
        }
    }
}

fn kind_of(slot: &Slot) -> u64 {
    match slot {
        Slot::Empty => 0,
        Slot::Message { .. } => 1,
        Slot::Enum { .. } => 2,
        Slot::Flags { .. } => 3,
        Slot::Union { .. } => 4,
        Slot::Newtype { .. } => 5,
        Slot::Config => 6,
        Slot::Alias { .. } => 7,
        Slot::Trait { .. } => 8,
        Slot::Impl(_) => 9,
    }
}
