//! Elements of arrays, sets and maps, and the limits that bear on them. By
//! document 02 a limit bears on a field whose own type is one of these, under
//! Default or Delta down to Default. Edition one has no limits.

use crate::ir::{Encoding, FieldDef, ResolvedType};

/// What such a type has any number of.
#[derive(Debug, Clone, Copy)]
pub enum Element<'t> {
    One(&'t ResolvedType),
    /// A key and a value.
    Entry(&'t ResolvedType, &'t ResolvedType),
}

/// The element of an Array, Set or Map.
pub fn element(ty: &ResolvedType) -> Option<Element<'_>> {
    match ty {
        ResolvedType::Array(one) | ResolvedType::Set(one) => Some(Element::One(one)),
        ResolvedType::Map(key, value) => Some(Element::Entry(key, value)),
        _ => None,
    }
}

/// A field's encoding, Delta taken for its inner one.
pub fn innermost(field: &FieldDef) -> &Encoding {
    let mut encoding = &field.encoding.encoding;
    while let Encoding::Delta(inner) = encoding {
        encoding = inner;
    }
    encoding
}

/// A field's limit and its element, if the limit bears on it; 0 is none.
pub fn limited(field: &FieldDef) -> Option<(u64, Element<'_>)> {
    let limit = field.encoding.limit.filter(|&limit| limit > 0)?;
    match innermost(field) {
        Encoding::Default => Some((limit, element(&field.resolved_type)?)),
        _ => None,
    }
}

/// Groups of seven bits that a count takes, 8 bits each in a value.
pub fn groups(count: u64) -> u64 {
    let bits = u64::from(u64::BITS - count.leading_zeros());
    bits.div_ceil(7).max(1)
}
