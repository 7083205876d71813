//! When a message is Fixed: by its fields' sizes at its last turn. Of a size
//! only this counts, whether it is Fixed and at how many bits, so nothing else
//! of sizes is worked out here.

use super::rules::declared;
use crate::answer::brought;
use crate::answer::elements::innermost;
use crate::answer::widths::{enum_bits, flags_bytes, primitive_bits};
use crate::ast::SemanticType;
use crate::format::Layout;
use crate::ir::{CompiledSchema, Encoding, FieldDef, ResolvedType, TypeDef, TypeId, WireSize};

/// The bits of a size that is Fixed; none of any other.
type Fixed = Option<u128>;

/// What declared messages come to at their last turns.
pub struct LastTurns {
    /// Per slot, the sum of a message's fields if every one is Fixed; nothing
    /// for other slots.
    pub sums: Vec<Option<Fixed>>,
    /// An earlier turn of some slot came to something else.
    pub moved: bool,
}

pub fn last_turns(schema: &CompiledSchema, layout: Layout) -> LastTurns {
    let mut turns = Turns::new(schema, layout);
    let mut last = LastTurns {
        sums: vec![None; schema.registry.len()],
        moved: false,
    };
    for &id in &schema.declarations {
        let slot = id.index() as usize;
        let size = match schema.registry.get(id) {
            Some(TypeDef::Message(message)) => turns.worked(slot, &message.fields),
            // Never Fixed.
            Some(TypeDef::Union(_)) => None,
            _ => continue,
        };
        turns.stored[slot] = Some(size);
        if let Some(TypeDef::Message(_)) = schema.registry.get(id) {
            last.moved |= last.sums[slot].is_some_and(|before| before != size);
            last.sums[slot] = Some(size);
        }
    }
    last
}

struct Turns<'a> {
    schema: &'a CompiledSchema,
    layout: Layout,
    declared: Vec<bool>,
    /// The sizes stored at this turn: of the latest earlier turn, else brought.
    stored: Vec<Option<Fixed>>,
    working: Vec<bool>,
}

impl<'a> Turns<'a> {
    fn new(schema: &'a CompiledSchema, layout: Layout) -> Self {
        let slots = schema.registry.len();
        let brought = (0..slots).map(|slot| brought(schema, slot).map(fixed_bits));
        Self {
            schema,
            layout,
            declared: declared(schema),
            stored: brought.collect(),
            working: vec![false; slots],
        }
    }

    /// A message by its fields, its own slot being worked out.
    fn worked(&mut self, slot: usize, fields: &[FieldDef]) -> Fixed {
        self.working[slot] = true;
        let mut sum = Some(0);
        for field in fields {
            let size = self.of_field(field);
            sum = sum.zip(size).map(|(sum, bits)| sum + bits);
        }
        self.working[slot] = false;
        sum
    }

    /// As it is added: on the head board in whole bytes.
    fn of_field(&mut self, field: &FieldDef) -> Fixed {
        let bits = match innermost(field) {
            Encoding::Varint | Encoding::ZigZag => None,
            _ => self.of_type(&field.resolved_type),
        };
        match self.layout {
            Layout::Packed => bits,
            Layout::Aligned => bits.map(|bits| bits.next_multiple_of(8)),
        }
    }

    fn of_type(&mut self, ty: &ResolvedType) -> Fixed {
        let (part, count) = match ty {
            ResolvedType::Primitive(primitive) => return Some(primitive_bits(*primitive)),
            ResolvedType::SubByte(sub) => return Some(sub.bits.into()),
            ResolvedType::BitsInline(names) => return Some(names.len() as u128),
            ResolvedType::Named(id) => return self.of_name(*id),
            ResolvedType::Semantic(semantic) => match semantic {
                SemanticType::String | SemanticType::Bytes => return None,
                SemanticType::Rgb => return Some(24),
                SemanticType::Uuid => return Some(128),
                SemanticType::Timestamp => return Some(64),
                SemanticType::Hash => return Some(256),
            },
            ResolvedType::FixedArray(part, size) => (part, *size),
            ResolvedType::Vec2(part) => (part, 2),
            ResolvedType::Vec3(part) => (part, 3),
            ResolvedType::Vec4(part) | ResolvedType::Quat(part) => (part, 4),
            ResolvedType::Mat3(part) => (part, 9),
            ResolvedType::Mat4(part) => (part, 16),
            ResolvedType::Optional(_)
            | ResolvedType::Array(_)
            | ResolvedType::Map(_, _)
            | ResolvedType::Set(_)
            | ResolvedType::Result(_, _) => return None,
        };
        let bits = self.of_type(part)?;
        bits.checked_mul(count.into())
    }

    fn of_name(&mut self, id: TypeId) -> Fixed {
        let slot = id.index() as usize;
        match self.schema.registry.get(id)? {
            _ if self.working[slot] => None,
            TypeDef::Enum(en) if self.declared[slot] => Some(enum_bits(en).into()),
            TypeDef::Enum(en) => Some(en.wire_bits.into()),
            TypeDef::Flags(flags) if self.declared[slot] => {
                Some(8 * u128::from(flags_bytes(flags)))
            }
            TypeDef::Flags(flags) => Some(8 * u128::from(flags.wire_bytes)),
            TypeDef::Newtype(newtype) => self.of_type(&newtype.terminal_type),
            TypeDef::Message(message) => match self.stored[slot] {
                Some(size) => size,
                None => self.worked(slot, &message.fields),
            },
            TypeDef::Union(_) => self.stored[slot].flatten(),
            _ => None,
        }
    }
}

fn fixed_bits(size: &WireSize) -> Fixed {
    match *size {
        WireSize::Fixed(bits) => Some(bits.into()),
        WireSize::Variable { .. } => None,
    }
}
