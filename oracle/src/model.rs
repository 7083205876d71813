//! An image as a tree. Numbers are held as they are written,
//! in range or not, so that a tree can also stand for an image to refuse.

use crate::draft::Draft;
use crate::format::Edition;

pub const OPTIONAL: u64 = 4;
pub const ARRAY: u64 = 5;
pub const SET: u64 = 7;
pub const MAP: u64 = 8;
pub const RESULT: u64 = 9;
pub const VEC2: u64 = 10;
pub const VEC3: u64 = 11;
pub const MAT4: u64 = 15;

pub const BOOL: Tree = Tree::Primitive(0);
pub const U8: Tree = Tree::Primitive(1);
pub const U32: Tree = Tree::Primitive(3);
pub const VOID: Tree = Tree::Primitive(13);

/// A type or an expression.
#[derive(Debug, Clone, PartialEq)]
pub enum Tree {
    Primitive(u64),
    SubByte(u64, u64),
    Semantic(u64),
    /// An id in a type, a name in an expression.
    Named(u64),
    /// A kind with one part: Optional, Array, Set, a vector or a matrix.
    Wrap(u64, Box<Tree>),
    Fixed(Box<Tree>, u64),
    /// Map or Result.
    Pair(u64, Box<Tree>, Box<Tree>),
    Bits(Vec<u64>),
    Qualified(u64),
    Generic(u64, Box<Tree>),
}

pub fn wrap(kind: u64, part: Tree) -> Tree {
    Tree::Wrap(kind, Box::new(part))
}

pub fn pair(kind: u64, left: Tree, right: Tree) -> Tree {
    Tree::Pair(kind, Box::new(left), Box::new(right))
}

pub fn fixed(element: Tree, size: u64) -> Tree {
    Tree::Fixed(Box::new(element), size)
}

pub fn generic(name: u64, argument: Tree) -> Tree {
    Tree::Generic(name, Box::new(argument))
}

#[derive(Debug, Clone, PartialEq)]
pub enum Stored {
    None,
    Fixed(u64),
    Open(u64),
    Bounded(u64, u64),
}

/// `deltas` times Delta, then the encoding that is none.
#[derive(Debug, Clone, Copy, PartialEq)]
pub struct Encoding {
    pub deltas: u32,
    pub last: u64,
}

#[derive(Debug, Clone, PartialEq)]
pub struct Field {
    pub name: u64,
    pub encoding: Encoding,
    pub tree: Tree,
    /// Most elements, 0 for no limit; written in edition two alone.
    pub limit: u64,
}

/// A field of default encoding and without limit.
pub fn field(name: u64, tree: Tree) -> Field {
    Field {
        name,
        encoding: Encoding { deltas: 0, last: 0 },
        tree,
        limit: 0,
    }
}

/// Ordinals of an enum or bits of flags.
#[derive(Debug, Clone, PartialEq)]
pub struct Ordinals {
    pub live: Vec<u64>,
    /// Written in edition two alone.
    pub retired: Vec<u64>,
}

/// Live ones alone.
pub fn live(live: Vec<u64>) -> Ordinals {
    Ordinals {
        live,
        retired: Vec::new(),
    }
}

#[derive(Debug, Clone, PartialEq)]
pub struct Impl {
    pub span: (u64, u64),
    /// The trait's id + 1, or 0.
    pub trait_number: u64,
    pub trait_span: Option<(u64, u64)>,
    pub arguments: Vec<Tree>,
    pub target: Tree,
}

#[derive(Debug, Clone, PartialEq)]
pub enum Slot {
    Empty,
    Message {
        span: (u64, u64),
        stored: Stored,
        fields: Vec<Field>,
    },
    Enum {
        backing: u64,
        non_exhaustive: u64,
        bits: u64,
        ordinals: Ordinals,
    },
    Flags {
        bytes: u64,
        bits: Ordinals,
    },
    Union {
        stored: Stored,
        variants: Vec<Vec<Field>>,
    },
    Newtype {
        inner: Tree,
        terminal: Tree,
    },
    Config,
    Alias {
        parameters: Vec<u64>,
        target: Tree,
    },
    Trait {
        parameters: Vec<u64>,
        fields: Vec<(u64, Tree)>,
    },
    Impl(Impl),
}

/// A message without stored size, its span told by its slot.
pub fn message(slot: u64, fields: Vec<Field>) -> Slot {
    Slot::Message {
        span: (100 + slot, 10 + slot),
        stored: Stored::None,
        fields,
    }
}

/// A union without stored size.
pub fn union(variants: Vec<Vec<Field>>) -> Slot {
    Slot::Union {
        stored: Stored::None,
        variants,
    }
}

#[derive(Debug, Clone, PartialEq, Default)]
pub struct Schema {
    /// Per name 0, or the slot it finds + 1.
    pub names: Vec<u64>,
    pub slots: Vec<Slot>,
    pub declarations: Vec<u64>,
}

/// A schema that declares all its slots in order.
pub fn declared(names: Vec<u64>, slots: Vec<Slot>) -> Schema {
    Schema {
        names,
        declarations: (0..slots.len() as u64).collect(),
        slots,
    }
}

impl Schema {
    /// The image in an edition. In edition one, limits and retired ones are
    /// left out.
    pub fn bytes(&self, edition: Edition) -> Vec<u8> {
        Draft::new(self, edition).bytes
    }
}
