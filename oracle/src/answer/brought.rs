//! The sizes that an image brings for its messages and unions.

use crate::ir::{CompiledSchema, TypeDef, TypeId, WireSize};

/// The size that the image brings for a slot, if it is a message or union.
pub fn brought(schema: &CompiledSchema, slot: usize) -> Option<&WireSize> {
    match schema.registry.get(TypeId(slot as u32))? {
        TypeDef::Message(message) => message.wire_size.as_ref(),
        TypeDef::Union(un) => un.wire_size.as_ref(),
        _ => None,
    }
}

/// The slots that bring one, the lowest first; refusal 15 is about them.
pub fn bringing(schema: &CompiledSchema) -> impl Iterator<Item = usize> + '_ {
    (0..schema.registry.len()).filter(|&slot| brought(schema, slot).is_some())
}
