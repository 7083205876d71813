//! The lengths of values, by the length rules of document 01 alone, and by what
//! document 02 says of arrays, sets and maps and adds for limits and for the head
//! board. Values are finite, so the lengths of all slots are the least sets that
//! the rules keep.

use std::cell::RefCell;
use std::collections::HashMap;

use super::parts::names_of;
use super::set::Lengths;
use crate::answer::elements::{element, innermost, limited, Element};
use crate::answer::parts::each_node;
use crate::answer::widths::{enum_bits, flags_bytes, primitive_bits};
use crate::ast::{PrimitiveType, SemanticType};
use crate::format::Layout;
use crate::ir::{CompiledSchema, Encoding, FieldDef, ResolvedType, TypeDef, TypeId};

/// The lengths of each slot's values.
pub fn lengths_of_slots(schema: &CompiledSchema, layout: Layout) -> Vec<Lengths> {
    let slots = schema.registry.len();
    let mut rules = Rules::new(schema, layout, vec![Lengths::NONE; slots]);
    // A slot's lengths rest on those of the slots that it names alone.
    let names: Vec<Vec<usize>> = (0..slots).map(|slot| names_of(schema, slot)).collect();
    let mut stale = vec![true; slots];
    while let Some(slot) = stale.iter().position(|&stale| stale) {
        stale[slot] = false;
        let lengths = rules.of_slot(slot);
        if lengths != rules.slots[slot] {
            rules.slots[slot] = lengths;
            for (user, names) in names.iter().enumerate() {
                stale[user] |= names.contains(&slot);
            }
        }
    }
    rules.slots
}

/// Per slot whether the declaration list holds its number.
pub fn declared(schema: &CompiledSchema) -> Vec<bool> {
    let mut declared = vec![false; schema.registry.len()];
    for id in &schema.declarations {
        if let Some(mark) = declared.get_mut(id.index() as usize) {
            *mark = true;
        }
    }
    declared
}

/// Whether one of these messages and unions has an array, set or map whose element
/// has no length, the lengths of all slots being known.
pub fn has_empty_elements(schema: &CompiledSchema, slots: &[usize], lengths: &[Lengths]) -> bool {
    let rules = Rules::new(schema, Layout::Packed, lengths.to_vec());
    let mut is_met = false;
    let mut look = |fields: &[FieldDef]| {
        for field in fields {
            each_node(&field.resolved_type, &mut |node| {
                is_met |= element(node).is_some_and(|one| rules.of_element(one).is_empty());
            });
        }
    };
    for &slot in slots {
        match schema.registry.get(TypeId(slot as u32)) {
            Some(TypeDef::Message(message)) => look(&message.fields),
            Some(TypeDef::Union(un)) => un.variants.iter().for_each(|one| look(&one.fields)),
            _ => {}
        }
    }
    is_met
}

struct Rules<'a> {
    schema: &'a CompiledSchema,
    layout: Layout,
    declared: Vec<bool>,
    /// What the rules have reached so far.
    slots: Vec<Lengths>,
    /// Arrays by their elements and the most that they have, each worked out once.
    arrays: RefCell<HashMap<(Lengths, u64), Lengths>>,
}

impl<'a> Rules<'a> {
    fn new(schema: &'a CompiledSchema, layout: Layout, slots: Vec<Lengths>) -> Self {
        Self {
            schema,
            layout,
            declared: declared(schema),
            slots,
            arrays: RefCell::default(),
        }
    }

    fn of_slot(&self, slot: usize) -> Lengths {
        match self.schema.registry.get(TypeId(slot as u32)) {
            Some(TypeDef::Message(message)) => self.of_fields(&message.fields),
            Some(TypeDef::Union(un)) if un.variants.is_empty() => Lengths::one(8),
            Some(TypeDef::Union(un)) => {
                let variants = un.variants.iter();
                let variants = variants.map(|variant| self.of_fields(&variant.fields));
                let any = variants.fold(Lengths::NONE, |any, one| any.or(&one));
                any.longer(8)
            }
            Some(TypeDef::Newtype(newtype)) => self.of_type(&newtype.terminal_type),
            Some(TypeDef::Enum(en)) => Lengths::one(match self.declared[slot] {
                true => enum_bits(en),
                false => en.wire_bits.into(),
            }),
            Some(TypeDef::Flags(flags)) => Lengths::one(match self.declared[slot] {
                true => 8 * flags_bytes(flags),
                false => 8 * u64::from(flags.wire_bytes),
            }),
            _ => Lengths::any_from(0),
        }
    }

    fn of_fields(&self, fields: &[FieldDef]) -> Lengths {
        let lengths = fields.iter().map(|field| self.laid(self.of_field(field)));
        lengths.fold(Lengths::one(0), |sum, one| sum.plus(&one))
    }

    /// A field's lengths with what is left free behind it.
    fn laid(&self, lengths: Lengths) -> Lengths {
        match self.layout {
            Layout::Packed => lengths,
            Layout::Aligned => lengths.in_bytes(),
        }
    }

    /// An encoding governs only the field's own type.
    fn of_field(&self, field: &FieldDef) -> Lengths {
        use PrimitiveType::*;
        if let Some((limit, element)) = limited(field) {
            return self.counted(element, limit);
        }
        let own = match &field.resolved_type {
            ResolvedType::Primitive(primitive) => Some(*primitive),
            _ => None,
        };
        let most = match (innermost(field), own) {
            (Encoding::Varint, Some(U16)) | (Encoding::ZigZag, Some(I16)) => 24,
            (Encoding::Varint, Some(U32)) | (Encoding::ZigZag, Some(I32)) => 40,
            (Encoding::Varint | Encoding::ZigZag, _) => 80,
            _ => return self.of_type(&field.resolved_type),
        };
        (8..=most).step_by(8).collect()
    }

    fn of_type(&self, ty: &ResolvedType) -> Lengths {
        match ty {
            ResolvedType::Primitive(primitive) => Lengths::one(primitive_bits(*primitive) as u64),
            ResolvedType::SubByte(sub) => Lengths::one(sub.bits.into()),
            ResolvedType::Semantic(semantic) => of_semantic(*semantic),
            ResolvedType::BitsInline(names) => Lengths::one(names.len() as u64),
            ResolvedType::Named(id) => match self.slots.get(id.index() as usize) {
                Some(lengths) => *lengths,
                None => Lengths::any_from(0),
            },
            ResolvedType::Optional(part) => Lengths::one(0).or(&self.of_type(part)).longer(1),
            ResolvedType::Array(one) | ResolvedType::Set(one) => {
                self.counted(Element::One(one), u64::MAX)
            }
            ResolvedType::Map(key, value) => self.counted(Element::Entry(key, value), u64::MAX),
            ResolvedType::Result(ok, err) => self.of_type(ok).or(&self.of_type(err)).longer(1),
            ResolvedType::FixedArray(part, size) => self.of_type(part).times(*size),
            ResolvedType::Vec2(part) => self.of_type(part).times(2),
            ResolvedType::Vec3(part) => self.of_type(part).times(3),
            ResolvedType::Vec4(part) | ResolvedType::Quat(part) => self.of_type(part).times(4),
            ResolvedType::Mat3(part) => self.of_type(part).times(9),
            ResolvedType::Mat4(part) => self.of_type(part).times(16),
        }
    }

    fn of_element(&self, element: Element<'_>) -> Lengths {
        match element {
            Element::One(one) => self.of_type(one),
            Element::Entry(key, value) => self.of_type(key).plus(&self.of_type(value)),
        }
    }

    /// Up to so many elements behind their count. None is denied for being there
    /// already.
    fn counted(&self, element: Element<'_>, most: u64) -> Lengths {
        let element = self.of_element(element);
        let mut arrays = self.arrays.borrow_mut();
        *arrays
            .entry((element, most))
            .or_insert_with(|| element.counted(most))
    }
}

fn of_semantic(semantic: SemanticType) -> Lengths {
    match semantic {
        SemanticType::String | SemanticType::Bytes => Lengths::any_from(0),
        SemanticType::Rgb => Lengths::one(24),
        SemanticType::Uuid => Lengths::one(128),
        SemanticType::Timestamp => Lengths::one(64),
        SemanticType::Hash => Lengths::one(256),
    }
}
