//! Slots of an image.

use super::reader::{Read, Reader};
use super::Added;
use crate::ast::{EnumBacking, TypeParam};
use crate::format::{
    Edition, BACKING_LIMIT, BYTE_LIMIT, SIZE_LIMIT, SLOT_KIND_LIMIT, STORED_LIMIT, U32_LIMIT,
};
use crate::ir::{
    ConfigDef, EnumDef, EnumVariantDef, FieldDef, FieldEncoding, FlagsBitDef, FlagsDef,
    GenericAliasDef, ImplDef, MessageDef, NewtypeDef, ResolvedAnnotations, ResolvedType,
    TombstoneDef, TraitDef, TraitFieldDef, TypeDef, TypeId, TypeRegistry, UnionDef,
    UnionVariantDef, WireSize, POISON_TYPE_ID,
};
use crate::smol_str::SmolStr;
use crate::span::{Span, Spanned};

/// What an image does not tell: own names, most spans, annotations.
fn unnamed() -> SmolStr {
    SmolStr::default()
}

fn nowhere() -> Span {
    Span::empty(0)
}

fn plain() -> ResolvedAnnotations {
    ResolvedAnnotations::default()
}

impl Reader<'_> {
    /// One slot, added to the registry.
    pub fn slot(&mut self, registry: &mut TypeRegistry) -> Read<()> {
        let id = registry.register_unbound_stub();
        let definition = match self.number(SLOT_KIND_LIMIT)? {
            0 => return Ok(()),
            1 => self.message()?,
            2 => self.enumeration()?,
            3 => self.flags()?,
            4 => self.union()?,
            5 => self.newtype()?,
            6 => config(),
            7 => self.alias()?,
            8 => self.trait_slot()?,
            _ => self.impl_slot(id, registry)?,
        };
        registry.fill_stub(id, definition);
        Ok(())
    }

    fn message(&mut self) -> Read<TypeDef> {
        Ok(TypeDef::Message(MessageDef {
            name: unnamed(),
            span: self.span()?,
            wire_size: self.stored_size()?,
            fields: self.list(Self::field)?,
            tombstones: Vec::new(),
            annotations: plain(),
        }))
    }

    fn stored_size(&mut self) -> Read<Option<WireSize>> {
        Ok(match self.number(STORED_LIMIT)? {
            0 => None,
            1 => Some(WireSize::Fixed(self.number(SIZE_LIMIT)?)),
            2 => Some(WireSize::Variable {
                min_bits: self.number(SIZE_LIMIT)?,
                max_bits: None,
            }),
            _ => Some(WireSize::Variable {
                min_bits: self.number(SIZE_LIMIT)?,
                max_bits: Some(self.number(SIZE_LIMIT)?),
            }),
        })
    }

    fn field(&mut self, position: u32) -> Read<FieldDef> {
        let name = self.name()?;
        let encoding = self.whole_encoding()?;
        let resolved_type = self.whole_type()?;
        let limit = self.limit()?;
        Ok(FieldDef {
            name,
            span: nowhere(),
            ordinal: position,
            encoding: FieldEncoding { encoding, limit },
            resolved_type,
            annotations: plain(),
            constraint: None,
        })
    }

    /// The limit after a field's type.
    fn limit(&mut self) -> Read<Option<u64>> {
        let limit = match self.edition {
            Edition::One => 0,
            Edition::Two => self.number(U32_LIMIT).map_err(Added::Limit.refused())?,
        };
        Ok((limit > 0).then_some(limit))
    }

    fn enumeration(&mut self) -> Read<TypeDef> {
        let backing = self.backing()?;
        let annotations = ResolvedAnnotations {
            non_exhaustive: self.flag()?,
            ..plain()
        };
        let wire_bits = self.number(BYTE_LIMIT)? as u8;
        let ordinals = self.ordinals()?;
        Ok(TypeDef::Enum(EnumDef {
            name: unnamed(),
            span: nowhere(),
            backing,
            annotations,
            wire_bits,
            variants: ordinals.live.into_iter().map(enum_variant).collect(),
            tombstones: ordinals.retired,
        }))
    }

    fn backing(&mut self) -> Read<Option<EnumBacking>> {
        Ok(match self.number(BACKING_LIMIT)? {
            0 => None,
            1 => Some(EnumBacking::U8),
            2 => Some(EnumBacking::U16),
            3 => Some(EnumBacking::U32),
            _ => Some(EnumBacking::U64),
        })
    }

    fn flags(&mut self) -> Read<TypeDef> {
        let wire_bytes = self.number(BYTE_LIMIT)? as u8;
        let ordinals = self.ordinals()?;
        Ok(TypeDef::Flags(FlagsDef {
            name: unnamed(),
            span: nowhere(),
            wire_bytes,
            bits: ordinals.live.into_iter().map(flags_bit).collect(),
            tombstones: ordinals.retired,
            annotations: plain(),
        }))
    }

    fn ordinals(&mut self) -> Read<Ordinals> {
        Ok(Ordinals {
            live: self.list(|reader, _| reader.id())?,
            retired: self.retired()?,
        })
    }

    /// The list after the live one.
    fn retired(&mut self) -> Read<Vec<TombstoneDef>> {
        match self.edition {
            Edition::One => Ok(Vec::new()),
            Edition::Two => {
                let count = self.count().map_err(Added::RetiredCount.refused())?;
                let one = |reader: &mut Self, _| reader.id().map(tombstone);
                let listed = self.items(count, one);
                listed.map_err(Added::Retired { count }.refused())
            }
        }
    }

    fn union(&mut self) -> Read<TypeDef> {
        Ok(TypeDef::Union(UnionDef {
            name: unnamed(),
            span: nowhere(),
            wire_size: self.stored_size()?,
            variants: self.list(Self::union_variant)?,
            tombstones: Vec::new(),
            annotations: plain(),
        }))
    }

    fn union_variant(&mut self, position: u32) -> Read<UnionVariantDef> {
        Ok(UnionVariantDef {
            name: unnamed(),
            span: nowhere(),
            ordinal: position,
            fields: self.list(Self::field)?,
            tombstones: Vec::new(),
            annotations: plain(),
        })
    }

    fn newtype(&mut self) -> Read<TypeDef> {
        Ok(TypeDef::Newtype(NewtypeDef {
            name: unnamed(),
            span: nowhere(),
            inner_type: self.whole_type()?,
            terminal_type: self.whole_type()?,
            annotations: plain(),
        }))
    }

    fn alias(&mut self) -> Read<TypeDef> {
        Ok(TypeDef::GenericAlias(GenericAliasDef {
            name: unnamed(),
            span: nowhere(),
            type_params: self.names()?,
            target_type: self.whole_expression()?,
            annotations: plain(),
        }))
    }

    fn trait_slot(&mut self) -> Read<TypeDef> {
        Ok(TypeDef::Trait(TraitDef {
            name: unnamed(),
            type_params: self.list(|reader, _| reader.parameter())?,
            fields: self.list(Self::trait_field)?,
            functions: Vec::new(),
            annotations: plain(),
            span: nowhere(),
        }))
    }

    fn parameter(&mut self) -> Read<TypeParam> {
        Ok(TypeParam {
            name: Spanned::new(self.name()?, nowhere()),
            bounds: Vec::new(),
        })
    }

    /// The check reads a trait field's expression alone, not its type.
    fn trait_field(&mut self, position: u32) -> Read<TraitFieldDef> {
        Ok(TraitFieldDef {
            name: self.name()?,
            ty: ResolvedType::Named(POISON_TYPE_ID),
            unresolved_ty: self.whole_expression()?,
            ordinal: position,
            annotations: plain(),
        })
    }

    fn impl_slot(&mut self, id: TypeId, registry: &mut TypeRegistry) -> Read<TypeDef> {
        let span = self.span()?;
        if let Some(trait_id) = self.number(U32_LIMIT)?.checked_sub(1) {
            registry.set_impl_trait_id(id, TypeId(trait_id as u32));
        }
        if self.flag()? {
            registry.set_impl_trait_span(id, self.span()?);
        }
        Ok(TypeDef::Impl(ImplDef {
            trait_name: unnamed(),
            type_args: self.list(|reader, _| reader.whole_type())?,
            target_type: self.whole_type()?,
            functions: Vec::new(),
            annotations: plain(),
            span,
        }))
    }
}

/// Ordinals of an enum or bits of flags.
struct Ordinals {
    live: Vec<u32>,
    retired: Vec<TombstoneDef>,
}

fn enum_variant(ordinal: u32) -> EnumVariantDef {
    EnumVariantDef {
        name: unnamed(),
        span: nowhere(),
        ordinal,
        annotations: plain(),
    }
}

fn flags_bit(bit: u32) -> FlagsBitDef {
    FlagsBitDef {
        name: unnamed(),
        span: nowhere(),
        bit,
        annotations: plain(),
    }
}

fn tombstone(ordinal: u32) -> TombstoneDef {
    TombstoneDef {
        span: nowhere(),
        ordinal,
        reason: unnamed(),
        since: None,
        original_type: None,
    }
}

fn config() -> TypeDef {
    TypeDef::Config(ConfigDef {
        name: unnamed(),
        span: nowhere(),
        fields: Vec::new(),
        annotations: plain(),
    })
}
