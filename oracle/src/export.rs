//! From the compiler's schema to an image.

use std::collections::HashMap;
use std::fmt;

use crate::ast::{EnumBacking, PrimitiveType, SemanticType, TypeExpr};
use crate::format::{
    Edition, COUNT_LIMIT, DECLARATION_LIMIT, IMAGE_LIMIT, LEVEL_LIMIT, NAME_LIMIT, SIZE_LIMIT,
    SLOT_LIMIT, U32_LIMIT,
};
use crate::ir::{
    CompiledSchema, Encoding, FieldDef, ImplDef, ResolvedType, TombstoneDef, TypeDef, TypeId,
    WireSize,
};
use crate::model::{
    self, fixed, generic, pair, wrap, Field, Impl, Ordinals, Schema, Slot, Stored, Tree,
};
use crate::span::Span;
use smol_str::SmolStr;

/// What an image cannot hold.
#[derive(Debug, Clone, Copy, PartialEq, Eq)]
pub enum Unfit {
    Names,
    Slots,
    Declarations,
    /// A list above 65,536, such as fields, variants or ordinals.
    Count,
    /// A type, expression or encoding past 32 levels.
    Levels,
    /// A stored size above 2^63 - 1.
    StoredSize,
    /// A trait id that leaves no room for id + 1.
    TraitId,
    /// A field's limit above 2^32 - 1, or one of 0, which stands for none.
    Limit,
    Bytes,
}

impl fmt::Display for Unfit {
    fn fmt(&self, out: &mut fmt::Formatter<'_>) -> fmt::Result {
        out.write_str(match self {
            Unfit::Names => "more than 4,096 names",
            Unfit::Slots => "more than 512 slots",
            Unfit::Declarations => "more than 1,024 declarations",
            Unfit::Count => "a list of more than 65,536",
            Unfit::Levels => "a type, expression or encoding past 32 levels",
            Unfit::StoredSize => "a stored size above 2^63 - 1",
            Unfit::TraitId => "a trait id above 2^32 - 2",
            Unfit::Limit => "a field's limit of 0 or above 2^32 - 1",
            Unfit::Bytes => "more than 65,536 bytes",
        })
    }
}

impl std::error::Error for Unfit {}

type Fit<T> = Result<T, Unfit>;

/// Writes a schema as an image, names numbered by first use in its bytes.
/// Edition one has no place for limits and retired ones and leaves them out.
pub fn export(schema: &CompiledSchema, edition: Edition) -> Fit<Vec<u8>> {
    let bytes = tree_of(schema, edition)?.bytes(edition);
    check(bytes.len() as u64, IMAGE_LIMIT as u64, Unfit::Bytes)?;
    Ok(bytes)
}

/// What is written, as a tree.
pub fn tree_of(schema: &CompiledSchema, edition: Edition) -> Fit<Schema> {
    let mut exporter = Exporter {
        schema,
        edition,
        numbers: HashMap::new(),
        finds: Vec::new(),
    };
    let slots = exporter.slots()?;
    let declarations = schema.declarations.iter().map(|id| u64::from(id.index()));
    let model = Schema {
        slots,
        declarations: declarations.collect(),
        names: exporter.finds,
    };
    check(model.names.len() as u64, NAME_LIMIT, Unfit::Names)?;
    let count = model.declarations.len() as u64;
    check(count, DECLARATION_LIMIT, Unfit::Declarations)?;
    Ok(model)
}

fn check(value: u64, limit: u64, unfit: Unfit) -> Fit<()> {
    if value > limit {
        return Err(unfit);
    }
    Ok(())
}

struct Exporter<'a> {
    schema: &'a CompiledSchema,
    edition: Edition,
    numbers: HashMap<SmolStr, u64>,
    /// Per name number 0, or the slot that `find_type` answers + 1.
    finds: Vec<u64>,
}

impl Exporter<'_> {
    fn slots(&mut self) -> Fit<Vec<Slot>> {
        let registry = &self.schema.registry;
        check(registry.len() as u64, SLOT_LIMIT, Unfit::Slots)?;
        let mut slots = Vec::new();
        for slot in 0..registry.len() {
            slots.push(self.slot(TypeId(slot as u32))?);
        }
        Ok(slots)
    }

    fn name(&mut self, name: &str) -> u64 {
        if let Some(&number) = self.numbers.get(name) {
            return number;
        }
        let number = self.finds.len() as u64;
        let found = self.schema.find_type(name);
        self.finds
            .push(found.map_or(0, |(id, _)| u64::from(id.index()) + 1));
        self.numbers.insert(SmolStr::new(name), number);
        number
    }

    fn names<'n>(&mut self, names: impl Iterator<Item = &'n SmolStr>) -> Fit<Vec<u64>> {
        list(names.map(|name| self.name(name)).collect())
    }

    fn slot(&mut self, id: TypeId) -> Fit<Slot> {
        let Some(definition) = self.schema.registry.get(id) else {
            return Ok(Slot::Empty);
        };
        Ok(match definition {
            TypeDef::Message(message) => Slot::Message {
                span: span(message.span),
                stored: stored(&message.wire_size)?,
                fields: self.fields(&message.fields)?,
            },
            TypeDef::Enum(en) => Slot::Enum {
                backing: backing(&en.backing),
                non_exhaustive: u64::from(en.annotations.non_exhaustive),
                bits: u64::from(en.wire_bits),
                ordinals: self.ordinals(en.variants.iter().map(|v| v.ordinal), &en.tombstones)?,
            },
            TypeDef::Flags(flags) => Slot::Flags {
                bytes: u64::from(flags.wire_bytes),
                bits: self.ordinals(flags.bits.iter().map(|b| b.bit), &flags.tombstones)?,
            },
            TypeDef::Union(un) => Slot::Union {
                stored: stored(&un.wire_size)?,
                variants: list(un.variants.iter().map(|v| &v.fields).collect())?
                    .into_iter()
                    .map(|fields| self.fields(fields))
                    .collect::<Fit<_>>()?,
            },
            TypeDef::Newtype(newtype) => Slot::Newtype {
                inner: self.whole_type(&newtype.inner_type)?,
                terminal: self.whole_type(&newtype.terminal_type)?,
            },
            TypeDef::Config(_) => Slot::Config,
            _ => self.generic_slot(id, definition)?,
        })
    }

    fn generic_slot(&mut self, id: TypeId, definition: &TypeDef) -> Fit<Slot> {
        Ok(match definition {
            TypeDef::GenericAlias(alias) => Slot::Alias {
                parameters: self.names(alias.type_params.iter())?,
                target: self.whole_expression(&alias.target_type)?,
            },
            TypeDef::Trait(definition) => {
                let parameters = definition.type_params.iter().map(|p| &p.name.node);
                let parameters = self.names(parameters)?;
                let mut fields = Vec::new();
                for field in &definition.fields {
                    let name = self.name(&field.name);
                    fields.push((name, self.whole_expression(&field.unresolved_ty)?));
                }
                Slot::Trait {
                    parameters,
                    fields: list(fields)?,
                }
            }
            TypeDef::Impl(body) => Slot::Impl(self.impl_slot(id, body)?),
            _ => Slot::Empty,
        })
    }

    fn impl_slot(&mut self, id: TypeId, body: &ImplDef) -> Fit<Impl> {
        let registry = &self.schema.registry;
        let trait_id = registry.impl_trait_id(id);
        let trait_number = trait_id.map_or(0, |id| u64::from(id.index()) + 1);
        check(trait_number, U32_LIMIT, Unfit::TraitId)?;
        let arguments = body.type_args.iter().map(|ty| self.whole_type(ty));
        Ok(Impl {
            span: span(body.span),
            trait_number,
            trait_span: registry.impl_trait_span(id).map(span),
            arguments: list(arguments.collect::<Fit<_>>()?)?,
            target: self.whole_type(&body.target_type)?,
        })
    }

    fn fields(&mut self, fields: &[FieldDef]) -> Fit<Vec<Field>> {
        let mut out = Vec::new();
        for field in fields {
            out.push(Field {
                name: self.name(&field.name),
                encoding: encoding(&field.encoding.encoding)?,
                tree: self.whole_type(&field.resolved_type)?,
                limit: self.limit(field)?,
            });
        }
        list(out)
    }

    fn limit(&self, field: &FieldDef) -> Fit<u64> {
        match (self.edition, field.encoding.limit) {
            (Edition::One, _) | (Edition::Two, None) => Ok(0),
            (Edition::Two, Some(0)) => Err(Unfit::Limit),
            (Edition::Two, Some(limit)) => check(limit, U32_LIMIT, Unfit::Limit).map(|()| limit),
        }
    }

    fn ordinals(
        &self,
        live: impl Iterator<Item = u32>,
        tombstones: &[TombstoneDef],
    ) -> Fit<Ordinals> {
        let retired = match self.edition {
            Edition::One => &[],
            Edition::Two => tombstones,
        };
        Ok(Ordinals {
            live: list(live.map(u64::from).collect())?,
            retired: list(retired.iter().map(|one| one.ordinal.into()).collect())?,
        })
    }

    fn whole_type(&mut self, ty: &ResolvedType) -> Fit<Tree> {
        self.type_at(ty, 1)
    }

    fn type_at(&mut self, ty: &ResolvedType, level: u32) -> Fit<Tree> {
        check(level.into(), LEVEL_LIMIT.into(), Unfit::Levels)?;
        let mut part = |ty: &ResolvedType| self.type_at(ty, level + 1);
        Ok(match ty {
            ResolvedType::Primitive(p) => Tree::Primitive(primitive(*p)),
            ResolvedType::SubByte(s) => Tree::SubByte(s.signed.into(), s.bits.into()),
            ResolvedType::Semantic(s) => Tree::Semantic(semantic(*s)),
            ResolvedType::Named(id) => Tree::Named(id.index().into()),
            ResolvedType::Optional(inner) => wrap(4, part(inner)?),
            ResolvedType::Array(inner) => wrap(5, part(inner)?),
            ResolvedType::FixedArray(inner, size) => fixed(part(inner)?, *size),
            ResolvedType::Set(inner) => wrap(7, part(inner)?),
            ResolvedType::Map(key, value) => pair(8, part(key)?, part(value)?),
            ResolvedType::Result(ok, err) => pair(9, part(ok)?, part(err)?),
            ResolvedType::Vec2(inner) => wrap(10, part(inner)?),
            ResolvedType::Vec3(inner) => wrap(11, part(inner)?),
            ResolvedType::Vec4(inner) => wrap(12, part(inner)?),
            ResolvedType::Quat(inner) => wrap(13, part(inner)?),
            ResolvedType::Mat3(inner) => wrap(14, part(inner)?),
            ResolvedType::Mat4(inner) => wrap(15, part(inner)?),
            ResolvedType::BitsInline(names) => Tree::Bits(self.names(names.iter())?),
        })
    }

    fn whole_expression(&mut self, expr: &TypeExpr) -> Fit<Tree> {
        self.expression_at(expr, 1)
    }

    fn expression_at(&mut self, expr: &TypeExpr, level: u32) -> Fit<Tree> {
        check(level.into(), LEVEL_LIMIT.into(), Unfit::Levels)?;
        let mut part = |expr: &TypeExpr| self.expression_at(expr, level + 1);
        Ok(match expr {
            TypeExpr::Primitive(p) => Tree::Primitive(primitive(*p)),
            TypeExpr::SubByte(s) => Tree::SubByte(s.signed.into(), s.bits.into()),
            TypeExpr::Semantic(s) => Tree::Semantic(semantic(*s)),
            TypeExpr::Named(name) => Tree::Named(self.name(name)),
            TypeExpr::Optional(inner) => wrap(4, part(&inner.node)?),
            TypeExpr::Array(inner) => wrap(5, part(&inner.node)?),
            TypeExpr::FixedArray(inner, size) => fixed(part(&inner.node)?, *size),
            TypeExpr::Set(inner) => wrap(7, part(&inner.node)?),
            TypeExpr::Map(key, value) => pair(8, part(&key.node)?, part(&value.node)?),
            TypeExpr::Result(ok, err) => pair(9, part(&ok.node)?, part(&err.node)?),
            TypeExpr::Vec2(inner) => wrap(10, part(&inner.node)?),
            TypeExpr::Vec3(inner) => wrap(11, part(&inner.node)?),
            TypeExpr::Vec4(inner) => wrap(12, part(&inner.node)?),
            TypeExpr::Quat(inner) => wrap(13, part(&inner.node)?),
            TypeExpr::Mat3(inner) => wrap(14, part(&inner.node)?),
            TypeExpr::Mat4(inner) => wrap(15, part(&inner.node)?),
            TypeExpr::BitsInline(names) => Tree::Bits(self.names(names.iter())?),
            TypeExpr::Qualified(ns, name) => Tree::Qualified(self.name(&format!("{ns}.{name}"))),
            TypeExpr::Generic(name, argument) => {
                let name = self.name(name);
                generic(name, self.expression_at(&argument.node, level + 1)?)
            }
        })
    }
}

fn list<T>(items: Vec<T>) -> Fit<Vec<T>> {
    check(items.len() as u64, COUNT_LIMIT, Unfit::Count)?;
    Ok(items)
}

fn span(span: Span) -> (u64, u64) {
    (span.offset.into(), span.len.into())
}

fn backing(backing: &Option<EnumBacking>) -> u64 {
    match backing {
        None => 0,
        Some(EnumBacking::U8) => 1,
        Some(EnumBacking::U16) => 2,
        Some(EnumBacking::U32) => 3,
        Some(EnumBacking::U64) => 4,
    }
}

fn stored(size: &Option<WireSize>) -> Fit<Stored> {
    let bits = |bits: u64| check(bits, SIZE_LIMIT, Unfit::StoredSize).map(|()| bits);
    Ok(match *size {
        None => Stored::None,
        Some(WireSize::Fixed(size)) => Stored::Fixed(bits(size)?),
        Some(WireSize::Variable { min_bits, max_bits }) => match max_bits {
            None => Stored::Open(bits(min_bits)?),
            Some(max_bits) => Stored::Bounded(bits(min_bits)?, bits(max_bits)?),
        },
    })
}

fn encoding(mut encoding: &Encoding) -> Fit<model::Encoding> {
    let mut deltas = 0;
    while let Encoding::Delta(inner) = encoding {
        deltas += 1;
        encoding = inner;
    }
    check(u64::from(deltas) + 1, LEVEL_LIMIT.into(), Unfit::Levels)?;
    let last = match encoding {
        Encoding::Varint => 1,
        Encoding::ZigZag => 2,
        _ => 0,
    };
    Ok(model::Encoding { deltas, last })
}

fn primitive(primitive: PrimitiveType) -> u64 {
    match primitive {
        PrimitiveType::Bool => 0,
        PrimitiveType::U8 => 1,
        PrimitiveType::U16 => 2,
        PrimitiveType::U32 => 3,
        PrimitiveType::U64 => 4,
        PrimitiveType::I8 => 5,
        PrimitiveType::I16 => 6,
        PrimitiveType::I32 => 7,
        PrimitiveType::I64 => 8,
        PrimitiveType::F32 => 9,
        PrimitiveType::F64 => 10,
        PrimitiveType::Fixed32 => 11,
        PrimitiveType::Fixed64 => 12,
        PrimitiveType::Void => 13,
    }
}

fn semantic(semantic: SemanticType) -> u64 {
    match semantic {
        SemanticType::String => 0,
        SemanticType::Bytes => 1,
        SemanticType::Rgb => 2,
        SemanticType::Uuid => 3,
        SemanticType::Timestamp => 4,
        SemanticType::Hash => 5,
    }
}
