//! Sizes by the rules of document 01, in 128 bits, to see what passes
//! 2^63 - 1, and by document 02 which step is the first that does, in either
//! layout, and with limits of elements. Written apart from the upstream check,
//! which adds in 64 bits, knows one layout and no limits.

use super::bearing::Bearing;
use super::brought::brought;
use super::elements::{groups, innermost, limited, Element};
use super::limit::{Halt, Operation, Part, PassedLimit, Step, Worked};
use super::rounding::{Rounding, BYTE};
use super::steps::{Steps, STEP_LIMIT};
use super::widths::{enum_bits, flags_bytes, primitive_bits};
use crate::ast::{PrimitiveType, SemanticType};
use crate::format::{Layout, SIZE_LIMIT};
use crate::ir::{CompiledSchema, Encoding, FieldDef, ResolvedType, TypeDef, TypeId, WireSize};

/// Why no size table came about.
pub enum Stop {
    /// A value passed the limit at the turn of this declared slot.
    Limit {
        slot: u64,
        passed: PassedLimit,
    },
    TooLong,
}

/// Smallest and largest bits; `fixed` where the compiler says Fixed.
#[derive(Clone, Copy)]
pub struct Size {
    pub fixed: bool,
    pub least: u128,
    pub most: Option<u128>,
}

const ANY: Size = Size {
    fixed: false,
    least: 0,
    most: None,
};

fn fixed(bits: u128) -> Size {
    Size {
        fixed: true,
        least: bits,
        most: Some(bits),
    }
}

fn between(least: u128, most: Option<u128>) -> Size {
    Size {
        fixed: false,
        least,
        most,
    }
}

fn within(bits: u128, made_by: Operation) -> Worked<u128> {
    if bits > u128::from(SIZE_LIMIT) {
        return Err(made_by.into());
    }
    Ok(bits)
}

fn sum(one: u128, other: u128) -> Worked<u128> {
    within(one + other, Operation::Sum)
}

fn product(bits: u128, factor: u128) -> Worked<u128> {
    within(bits * factor, Operation::Product)
}

/// Rounding counts as a sum.
fn whole_bytes(bits: u128) -> Worked<u128> {
    within(bits.next_multiple_of(BYTE as u128), Operation::Sum)
}

/// What was met while sizes were worked out.
#[derive(Debug, Clone, Copy, Default, PartialEq, Eq)]
pub struct Notes {
    /// What was rounded; nothing in the packed layout.
    pub rounding: Rounding,
    /// What limits bear on; nothing in edition one.
    pub limits: Bearing,
}

/// The size table of a schema, or why there is none, in the usual number of steps.
pub fn table_of(schema: &CompiledSchema, layout: Layout) -> Result<Vec<u64>, Stop> {
    let mut steps = Steps::new(schema, STEP_LIMIT);
    size_table(schema, layout, &mut steps, &mut Notes::default())
}

/// Three numbers a slot, as they stand after the check.
pub fn size_table(
    schema: &CompiledSchema,
    layout: Layout,
    steps: &mut Steps,
    notes: &mut Notes,
) -> Result<Vec<u64>, Stop> {
    let mut sizes = Sizes::new(schema, layout, steps, notes);
    for &id in &schema.declarations {
        let worked = match schema.registry.get(id) {
            Some(TypeDef::Message(_) | TypeDef::Union(_)) => sizes.work(id),
            _ => continue,
        };
        let slot = u64::from(id.index());
        match worked {
            Ok(size) => sizes.stored[id.index() as usize] = Some(size),
            Err(Halt::Limit(passed)) => return Err(Stop::Limit { slot, passed }),
            Err(Halt::TooLong) => return Err(Stop::TooLong),
        }
    }
    Ok(sizes.table())
}

struct Sizes<'a> {
    schema: &'a CompiledSchema,
    layout: Layout,
    /// Per slot: size of a message or union, if any so far.
    stored: Vec<Option<Size>>,
    /// Per slot: bits of an enum, bytes of flags.
    widths: Vec<u64>,
    working: Vec<bool>,
    steps: &'a mut Steps,
    notes: &'a mut Notes,
}

impl<'a> Sizes<'a> {
    fn new(
        schema: &'a CompiledSchema,
        layout: Layout,
        steps: &'a mut Steps,
        notes: &'a mut Notes,
    ) -> Self {
        let slots = schema.registry.len();
        let mut declared = vec![false; slots];
        for id in &schema.declarations {
            if let Some(mark) = declared.get_mut(id.index() as usize) {
                *mark = true;
            }
        }
        let definition = |slot: usize| schema.registry.get(TypeId(slot as u32));
        let widths = (0..slots).map(|slot| match definition(slot) {
            Some(TypeDef::Enum(en)) if declared[slot] => enum_bits(en),
            Some(TypeDef::Enum(en)) => en.wire_bits.into(),
            Some(TypeDef::Flags(flags)) if declared[slot] => flags_bytes(flags),
            Some(TypeDef::Flags(flags)) => flags.wire_bytes.into(),
            _ => 0,
        });
        let stored = (0..slots).map(|slot| brought(schema, slot).map(Size::from));
        Self {
            schema,
            layout,
            stored: stored.collect(),
            widths: widths.collect(),
            working: vec![false; slots],
            steps,
            notes,
        }
    }

    fn table(&self) -> Vec<u64> {
        let mut table = Vec::new();
        for (slot, stored) in self.stored.iter().enumerate() {
            let row = match self.schema.registry.get(TypeId(slot as u32)) {
                Some(TypeDef::Enum(_)) => [4, self.widths[slot], 0],
                Some(TypeDef::Flags(_)) => [5, self.widths[slot], 0],
                _ => stored.map_or([0, 0, 0], row),
            };
            table.extend(row);
        }
        table
    }

    /// A message or union by its fields, whatever is stored.
    fn work(&mut self, id: TypeId) -> Worked<Size> {
        self.steps.charge_slot(id)?;
        let slot = id.index() as usize;
        self.working[slot] = true;
        self.steps.enter();
        let size = match self.schema.registry.get(id) {
            Some(TypeDef::Message(message)) => {
                let size = self.total(&message.fields, Part::Message);
                size.map_err(|halt| halt.inside(Part::Message))
            }
            Some(TypeDef::Union(un)) => {
                let variants = un.variants.iter().map(|variant| &variant.fields[..]);
                let size = self.extremes(variants);
                size.map_err(|halt| halt.inside(Part::Union))
            }
            _ => Ok(ANY),
        };
        self.steps.leave();
        self.working[slot] = false;
        size
    }

    /// The fields of a message, or of a union's variant.
    fn total(&mut self, fields: &[FieldDef], owner: Part) -> Worked<Size> {
        let mut total = fixed(0);
        for field in fields {
            let size = self.field(field, owner)?;
            let size = self.laid(size, total, owner)?;
            total.least = sum(total.least, size.least)?;
            total.most = match (total.most, size.most) {
                (Some(total), Some(most)) => Some(sum(total, most)?),
                _ => None,
            };
            total.fixed &= size.fixed;
        }
        Ok(total)
    }

    /// A field's size as it is added to a total: on the head board in whole
    /// bytes, and Fixed only if it was before.
    fn laid(&mut self, size: Size, total: Size, owner: Part) -> Worked<Size> {
        if self.layout == Layout::Packed {
            return Ok(size);
        }
        self.notes.rounding.note(owner, size, total);
        Ok(Size {
            least: whole_bytes(size.least)?,
            most: size.most.map(whole_bytes).transpose()?,
            ..size
        })
    }

    fn extremes<'f>(&mut self, variants: impl Iterator<Item = &'f [FieldDef]>) -> Worked<Size> {
        let mut least = None;
        let mut most = Some(0);
        for fields in variants {
            let total = self.total(fields, Part::Union)?;
            least = Some(least.map_or(total.least, |least: u128| least.min(total.least)));
            most = most.zip(total.most).map(|(one, other)| one.max(other));
        }
        let least = sum(8, least.unwrap_or(0))?;
        Ok(between(least, raised(most, 8)?))
    }

    fn field(&mut self, field: &FieldDef, owner: Part) -> Worked<Size> {
        let ty = &field.resolved_type;
        if let Some((limit, element)) = limited(field) {
            self.notes.limits.note(field, owner);
            self.steps.enter();
            let size = self.limited(ty, limit, element);
            self.steps.leave();
            return size.map_err(|halt| halt.inside(Part::Limited));
        }
        let registry = &self.schema.registry;
        self.notes.limits.note_other(field, registry);
        match innermost(field) {
            Encoding::Varint => Ok(in_groups(ty, 0)),
            Encoding::ZigZag => Ok(in_groups(ty, 1)),
            _ => self.of_type(ty),
        }
    }

    /// A field of so many elements at most, and of none at least; never Fixed.
    fn limited(&mut self, ty: &ResolvedType, limit: u64, element: Element<'_>) -> Worked<Size> {
        let element = match element {
            Element::One(one) => self.inside(one, Step::Inside)?,
            Element::Entry(key, value) => self.entry(key, value)?,
        };
        self.notes.limits.note_element(ty, limit, element);
        let Some(most) = element.most else {
            return Ok(between(8, None));
        };
        let all = product(most, limit.into()).map_err(|halt| halt.at(Step::Product))?;
        let count = u128::from(8 * groups(limit));
        let most = sum(count, all).map_err(|halt| halt.at(Step::Sum))?;
        Ok(between(8, Some(most)))
    }

    /// A key and a value, both worked out in every case. Their largest are added if
    /// both have one, their smallest never: an element's is not asked for.
    fn entry(&mut self, key: &ResolvedType, value: &ResolvedType) -> Worked<Size> {
        let key = self.inside(key, Step::Inside)?;
        let step = match key.most {
            Some(_) => Step::Inside,
            None => Step::Value,
        };
        let value = self.inside(value, step)?;
        self.notes.limits.note_entry(key, value);
        let both = key.most.zip(value.most);
        let most = both.map(|(key, value)| sum(key, value)).transpose();
        let most = most.map_err(|halt| halt.at(Step::Entry))?;
        Ok(between(0, most))
    }

    /// A type inside a limited field.
    fn inside(&mut self, ty: &ResolvedType, step: Step) -> Worked<Size> {
        self.of_type(ty).map_err(|halt| halt.at(step))
    }

    fn of_type(&mut self, ty: &ResolvedType) -> Worked<Size> {
        self.steps.enter();
        let size = self.of_kind(ty);
        self.steps.leave();
        match part(ty) {
            Some(part) => size.map_err(|halt| halt.inside(part)),
            None => size,
        }
    }

    fn of_kind(&mut self, ty: &ResolvedType) -> Worked<Size> {
        Ok(match ty {
            ResolvedType::Primitive(primitive) => fixed(primitive_bits(*primitive)),
            ResolvedType::SubByte(sub) => fixed(sub.bits.into()),
            ResolvedType::Semantic(semantic) => semantic_size(*semantic),
            ResolvedType::BitsInline(names) => fixed(names.len() as u128),
            ResolvedType::Named(id) => self.of_name(*id)?,
            ResolvedType::Optional(part) => {
                let size = self.of_type(part)?;
                between(1, raised(size.most, 1)?)
            }
            ResolvedType::Array(_) | ResolvedType::Set(_) | ResolvedType::Map(_, _) => {
                between(8, None)
            }
            ResolvedType::FixedArray(part, size) => {
                let element = self.of_type(part)?;
                let least = product(element.least, u128::from(*size))?;
                if element.fixed {
                    fixed(least)
                } else {
                    between(least, None)
                }
            }
            ResolvedType::Result(ok, err) => {
                let (ok, err) = (self.of_type(ok)?, self.of_type(err)?);
                let most = ok.most.zip(err.most).map(|(ok, err)| ok.max(err));
                between(sum(1, ok.least.min(err.least))?, raised(most, 1)?)
            }
            ResolvedType::Vec2(part) => self.times(part, 2)?,
            ResolvedType::Vec3(part) => self.times(part, 3)?,
            ResolvedType::Vec4(part) | ResolvedType::Quat(part) => self.times(part, 4)?,
            ResolvedType::Mat3(part) => self.times(part, 9)?,
            ResolvedType::Mat4(part) => self.times(part, 16)?,
        })
    }

    fn times(&mut self, part: &ResolvedType, factor: u128) -> Worked<Size> {
        let size = self.of_type(part)?;
        let most = match size.most {
            Some(most) => Some(product(most, factor)?),
            None => None,
        };
        Ok(Size {
            fixed: size.fixed,
            least: product(size.least, factor)?,
            most,
        })
    }

    fn of_name(&mut self, id: TypeId) -> Worked<Size> {
        let slot = id.index() as usize;
        let Some(definition) = self.schema.registry.get(id) else {
            return Ok(ANY);
        };
        if self.working[slot] {
            return Ok(ANY);
        }
        match definition {
            TypeDef::Enum(_) => Ok(fixed(self.widths[slot].into())),
            TypeDef::Flags(_) => Ok(fixed(8 * u128::from(self.widths[slot]))),
            TypeDef::Newtype(newtype) => {
                self.steps.charge_slot(id)?;
                self.of_type(&newtype.terminal_type)
            }
            TypeDef::Message(_) | TypeDef::Union(_) => match self.stored[slot] {
                Some(size) => Ok(size),
                None => self.work(id),
            },
            _ => Ok(ANY),
        }
    }
}

fn raised(most: Option<u128>, by: u128) -> Worked<Option<u128>> {
    most.map(|most| sum(most, by)).transpose()
}

/// What a type is to the steps inside it.
fn part(ty: &ResolvedType) -> Option<Part> {
    match ty {
        ResolvedType::Result(..) => Some(Part::Result),
        ResolvedType::Optional(_) => Some(Part::Optional),
        ResolvedType::FixedArray(..) => Some(Part::FixedArray),
        ResolvedType::Vec2(_)
        | ResolvedType::Vec3(_)
        | ResolvedType::Vec4(_)
        | ResolvedType::Quat(_)
        | ResolvedType::Mat3(_)
        | ResolvedType::Mat4(_) => Some(Part::Vector),
        _ => None,
    }
}

fn row(size: Size) -> [u64; 3] {
    let least = size.least as u64;
    match size.most {
        Some(_) if size.fixed => [1, least, least],
        Some(most) => [2, least, most as u64],
        None => [3, least, 0],
    }
}

impl From<&WireSize> for Size {
    fn from(size: &WireSize) -> Self {
        match *size {
            WireSize::Fixed(bits) => fixed(bits.into()),
            WireSize::Variable { min_bits, max_bits } => {
                between(min_bits.into(), max_bits.map(u128::from))
            }
        }
    }
}

fn semantic_size(semantic: SemanticType) -> Size {
    match semantic {
        SemanticType::String | SemanticType::Bytes => ANY,
        SemanticType::Rgb => fixed(24),
        SemanticType::Uuid => fixed(128),
        SemanticType::Timestamp => fixed(64),
        SemanticType::Hash => fixed(256),
    }
}

/// Varint (0) and ZigZag (1): bytes of seven bits each, to ten.
fn in_groups(ty: &ResolvedType, signed: usize) -> Size {
    let short = [PrimitiveType::U16, PrimitiveType::I16][signed];
    let middle = [PrimitiveType::U32, PrimitiveType::I32][signed];
    let most = match ty {
        ResolvedType::Primitive(primitive) if *primitive == short => 24,
        ResolvedType::Primitive(primitive) if *primitive == middle => 40,
        _ => 80,
    };
    between(8, Some(most))
}
