//! What a type is made of, and whether that leads back, as document 01 says
//! it: all parts but elements of Array, Map and Set; a Varint or ZigZag field
//! has none. By document 02 the elements of a field that has a limit of them are
//! parts too.

use crate::answer::elements::{innermost, limited, Element};
use crate::answer::parts::each_node;
use crate::ir::{CompiledSchema, Encoding, FieldDef, ResolvedType, TypeDef, TypeId};

/// Per slot, whether something it is made of leads back to itself.
pub fn leading_back(schema: &CompiledSchema) -> Vec<bool> {
    let slots = schema.registry.len();
    let reached: Vec<Vec<bool>> = (0..slots).map(|slot| reached(schema, slot)).collect();
    let made_of = |slot: usize, part: usize| part == slot || reached[slot][part];
    let back = |slot| (0..slots).any(|part| made_of(slot, part) && reached[part][part]);
    (0..slots).map(back).collect()
}

/// The slots reached from a slot's parts, by one step or more.
pub fn reached(schema: &CompiledSchema, slot: usize) -> Vec<bool> {
    let mut reached = vec![false; schema.registry.len()];
    let mut open = parts_of(schema, slot);
    while let Some(part) = open.pop() {
        if let Some(mark) = reached.get_mut(part) {
            if !std::mem::replace(mark, true) {
                open.extend(parts_of(schema, part));
            }
        }
    }
    reached
}

/// The slots that a slot's own parts name.
pub fn parts_of(schema: &CompiledSchema, slot: usize) -> Vec<usize> {
    let mut parts = Vec::new();
    match schema.registry.get(TypeId(slot as u32)) {
        Some(TypeDef::Message(message)) => add_fields(&message.fields, &mut parts),
        Some(TypeDef::Union(un)) => {
            let variants = un.variants.iter();
            variants.for_each(|variant| add_fields(&variant.fields, &mut parts));
        }
        Some(TypeDef::Newtype(newtype)) => add_type(&newtype.terminal_type, &mut parts),
        _ => {}
    }
    parts
}

/// All slots that a slot's types name, in elements too.
pub fn names_of(schema: &CompiledSchema, slot: usize) -> Vec<usize> {
    let mut names = Vec::new();
    let mut add = |ty: &ResolvedType| {
        each_node(ty, &mut |node| {
            if let ResolvedType::Named(id) = node {
                names.push(id.index() as usize);
            }
        });
    };
    let mut add_all = |fields: &[FieldDef]| fields.iter().for_each(|one| add(&one.resolved_type));
    match schema.registry.get(TypeId(slot as u32)) {
        Some(TypeDef::Message(message)) => add_all(&message.fields),
        Some(TypeDef::Union(un)) => un.variants.iter().for_each(|one| add_all(&one.fields)),
        Some(TypeDef::Newtype(newtype)) => add(&newtype.terminal_type),
        _ => {}
    }
    names
}

fn add_fields(fields: &[FieldDef], parts: &mut Vec<usize>) {
    for field in fields {
        match (limited(field), innermost(field)) {
            (Some((_, Element::One(one))), _) => add_type(one, parts),
            (Some((_, Element::Entry(key, value))), _) => {
                add_type(key, parts);
                add_type(value, parts);
            }
            (None, Encoding::Varint | Encoding::ZigZag) => {}
            _ => add_type(&field.resolved_type, parts),
        }
    }
}

fn add_type(ty: &ResolvedType, parts: &mut Vec<usize>) {
    match ty {
        ResolvedType::Named(id) => parts.push(id.index() as usize),
        ResolvedType::Optional(part)
        | ResolvedType::FixedArray(part, _)
        | ResolvedType::Vec2(part)
        | ResolvedType::Vec3(part)
        | ResolvedType::Vec4(part)
        | ResolvedType::Quat(part)
        | ResolvedType::Mat3(part)
        | ResolvedType::Mat4(part) => add_type(part, parts),
        ResolvedType::Result(ok, err) => {
            add_type(ok, parts);
            add_type(err, parts);
        }
        _ => {}
    }
}
