//! What limits met in one image while its sizes were worked out: the fields that
//! they bear on, those that they do not, what the elements came to, and steps that
//! are at the limit of sizes or all but.

use super::elements::{element, groups, innermost};
use super::limit::Part;
use super::sizes::Size;
use crate::format::SIZE_LIMIT;
use crate::ir::{Encoding, FieldDef, ResolvedType, TypeDef, TypeRegistry};

/// Types that a limit bears on.
pub const KINDS: [&str; 3] = ["Array", "Set", "Map"];

/// How their fields are encoded, and by Delta more often than twice.
pub const ENCODINGS: [&str; 4] = ["Default", "Delta", "Delta Delta", "more Delta"];

/// Fields with a limit that bears on nothing.
pub const IGNORED: [&str; 6] = [
    "another kind",
    "an Optional of one",
    "a newtype of one",
    "one under Varint",
    "one under ZigZag",
    "a fixed array of them",
];

/// What an element comes to.
pub const ELEMENTS: [&str; 3] = ["a largest", "no largest", "no bits"];

/// Which of a key and a value have a largest.
pub const ENTRIES: [&str; 4] = ["both", "key alone", "value alone", "neither"];

/// Smallest sizes that would pass the limit of sizes, if they were added or
/// multiplied; there is no largest.
pub const SMALLEST: [&str; 2] = ["of key and value", "of all elements"];

/// Limits at which the groups change, or the range ends.
pub const LIMITS: [u64; 10] = [
    1,
    127,
    128,
    16_383,
    16_384,
    2_097_151,
    2_097_152,
    (1 << 28) - 1,
    1 << 28,
    (1 << 32) - 1,
];

/// Steps at the limit of sizes: what they come to. The first two are the greatest
/// that a field may have in each layout.
pub const BORDERS: [&str; 8] = [
    "a largest of 2^63 - 1",
    "a largest of 2^63 - 8",
    "a largest of 2^63",
    "a product of 2^63 - 1",
    "a product of 2^63",
    "a key and value of 2^63 - 1",
    "a key and value of 2^63",
    "a product past 64 bits",
];

#[derive(Debug, Clone, Copy, Default, PartialEq, Eq)]
pub struct Bearing {
    /// By kind: in a message, in a variant.
    pub owners: [[bool; 2]; KINDS.len()],
    pub encodings: [bool; ENCODINGS.len()],
    pub ignored: [bool; IGNORED.len()],
    /// By kind.
    pub elements: [[bool; ELEMENTS.len()]; KINDS.len()],
    pub entries: [bool; ENTRIES.len()],
    pub smallest: [bool; SMALLEST.len()],
    /// Limits of elements with a largest.
    pub limits: [bool; LIMITS.len()],
    /// A field of 8..8.
    pub equal_ends: bool,
    pub borders: [bool; BORDERS.len()],
}

impl Bearing {
    /// Notes a field that a limit bears on.
    pub fn note(&mut self, field: &FieldDef, owner: Part) {
        let owner = usize::from(owner == Part::Union);
        self.owners[kind(&field.resolved_type)][owner] = true;
        let deltas = deltas(&field.encoding.encoding);
        self.encodings[deltas.min(ENCODINGS.len() - 1)] = true;
    }

    /// Notes a field that none bears on, though it may have one.
    pub fn note_other(&mut self, field: &FieldDef, registry: &TypeRegistry) {
        if field.encoding.limit.is_some_and(|limit| limit > 0) {
            self.ignored[ignored(field, registry)] = true;
        }
    }

    /// Notes what a key and a value came to.
    pub fn note_entry(&mut self, key: Size, value: Size) {
        let which = match (key.most, value.most) {
            (Some(_), Some(_)) => 0,
            (Some(_), None) => 1,
            (None, Some(_)) => 2,
            (None, None) => 3,
        };
        self.entries[which] = true;
        match (key.most, value.most) {
            (Some(key), Some(value)) => {
                self.borders[5] |= is(key + value, 0);
                self.borders[6] |= is(key + value, 1);
            }
            _ => self.smallest[0] |= passes(key.least + value.least),
        }
    }

    /// Notes what an element came to, and what the field is about to.
    pub fn note_element(&mut self, ty: &ResolvedType, limit: u64, element: Size) {
        let which = match element.most {
            None => 1,
            Some(0) => 2,
            Some(_) => 0,
        };
        self.elements[kind(ty)][which] = true;
        let Some(most) = element.most else {
            let is_one = !matches!(ty, ResolvedType::Map(..));
            self.smallest[1] |= is_one && passes(element.least * u128::from(limit));
            return;
        };
        if let Some(at) = LIMITS.iter().position(|&one| one == limit) {
            self.limits[at] = true;
        }
        let product = most * u128::from(limit);
        let largest = product + u128::from(8 * groups(limit));
        self.equal_ends |= largest == 8;
        self.borders[0] |= is(largest, 0);
        self.borders[1] |= largest + 7 == u128::from(SIZE_LIMIT);
        self.borders[2] |= is(largest, 1);
        self.borders[3] |= is(product, 0);
        self.borders[4] |= is(product, 1);
        self.borders[7] |= product > u128::from(u64::MAX);
    }
}

/// Whether bits are so many above the limit.
fn is(bits: u128, above: u128) -> bool {
    bits == u128::from(SIZE_LIMIT) + above
}

fn passes(bits: u128) -> bool {
    bits > u128::from(SIZE_LIMIT)
}

/// In the order of `KINDS`.
fn kind(ty: &ResolvedType) -> usize {
    match ty {
        ResolvedType::Array(_) => 0,
        ResolvedType::Set(_) => 1,
        _ => 2,
    }
}

fn deltas(mut encoding: &Encoding) -> usize {
    let mut deltas = 0;
    while let Encoding::Delta(inner) = encoding {
        encoding = inner;
        deltas += 1;
    }
    deltas
}

/// In the order of `IGNORED`.
fn ignored(field: &FieldDef, registry: &TypeRegistry) -> usize {
    let is_one = |ty: &ResolvedType| element(ty).is_some();
    match &field.resolved_type {
        ty if is_one(ty) => match innermost(field) {
            Encoding::Varint => 3,
            _ => 4,
        },
        ResolvedType::Optional(part) if is_one(part) => 1,
        ResolvedType::FixedArray(part, _) if is_one(part) => 5,
        ResolvedType::Named(id) => match registry.get(*id) {
            Some(TypeDef::Newtype(newtype)) if is_one(&newtype.terminal_type) => 2,
            _ => 0,
        },
        _ => 0,
    }
}
