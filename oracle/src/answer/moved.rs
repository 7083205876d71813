//! Retired ones moved behind the live ones, or taken out, and limits taken out.
//! The upstream check looks at live ones alone and at no limits, so an image of
//! edition two is compared with the Rust check of the image whose retired ones
//! are moved, and its sizes without limits with those there.

use super::elements::limited;
use crate::ir::{
    CompiledSchema, EnumVariantDef, FieldDef, FlagsBitDef, ResolvedAnnotations, TombstoneDef,
    TypeDef, TypeId,
};

/// Moves the retired ones of every slot behind its live ones.
pub fn move_retired(schema: &mut CompiledSchema) {
    each_definition(schema, &mut |definition| match definition {
        TypeDef::Enum(en) => {
            let retired = en.tombstones.drain(..);
            en.variants.extend(retired.map(enum_variant));
        }
        TypeDef::Flags(flags) => {
            let retired = flags.tombstones.drain(..);
            flags.bits.extend(retired.map(flags_bit));
        }
        _ => {}
    });
}

/// Takes the retired ones of every slot out: what is left is worked out by the
/// live ones alone.
pub fn take_out_retired(schema: &mut CompiledSchema) {
    each_definition(schema, &mut |definition| match definition {
        TypeDef::Enum(en) => en.tombstones.clear(),
        TypeDef::Flags(flags) => flags.tombstones.clear(),
        _ => {}
    });
}

/// Takes the limits of all fields out.
pub fn take_out_limits(schema: &mut CompiledSchema) {
    let clear = |fields: &mut [FieldDef]| {
        let fields = fields.iter_mut();
        fields.for_each(|field| field.encoding.limit = None);
    };
    each_definition(schema, &mut |definition| match definition {
        TypeDef::Message(message) => clear(&mut message.fields),
        TypeDef::Union(un) => {
            let variants = un.variants.iter_mut();
            variants.for_each(|variant| clear(&mut variant.fields));
        }
        _ => {}
    });
}

/// Whether a limit bears on the elements of a field.
pub fn has_limited(schema: &CompiledSchema) -> bool {
    let bears = |fields: &[FieldDef]| fields.iter().any(|field| limited(field).is_some());
    let mut definitions = schema.registry.iter();
    definitions.any(|(_, definition)| match definition {
        TypeDef::Message(message) => bears(&message.fields),
        TypeDef::Union(un) => un.variants.iter().any(|variant| bears(&variant.fields)),
        _ => false,
    })
}

fn each_definition(schema: &mut CompiledSchema, change: &mut dyn FnMut(&mut TypeDef)) {
    for slot in 0..schema.registry.len() as u32 {
        if let Some(definition) = schema.registry.get_mut(TypeId(slot)) {
            change(definition);
        }
    }
}

fn enum_variant(retired: TombstoneDef) -> EnumVariantDef {
    EnumVariantDef {
        name: retired.reason,
        span: retired.span,
        ordinal: retired.ordinal,
        annotations: ResolvedAnnotations::default(),
    }
}

fn flags_bit(retired: TombstoneDef) -> FlagsBitDef {
    FlagsBitDef {
        name: retired.reason,
        span: retired.span,
        bit: retired.ordinal,
        annotations: ResolvedAnnotations::default(),
    }
}
