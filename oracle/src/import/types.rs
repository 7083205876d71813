//! Types, expressions and encodings of an image.

use super::reader::{Read, Reader};
use crate::ast::{PrimitiveType, SemanticType, SubByteType, TypeExpr};
use crate::format::{
    BYTE_LIMIT, ENCODING_LIMIT, EXPRESSION_KIND_LIMIT, PRIMITIVE_LIMIT, SEMANTIC_LIMIT,
    TYPE_KIND_LIMIT,
};
use crate::ir::{Encoding, ResolvedType, TypeId};
use crate::smol_str::SmolStr;
use crate::span::{Span, Spanned};

const PRIMITIVES: [PrimitiveType; 14] = [
    PrimitiveType::Bool,
    PrimitiveType::U8,
    PrimitiveType::U16,
    PrimitiveType::U32,
    PrimitiveType::U64,
    PrimitiveType::I8,
    PrimitiveType::I16,
    PrimitiveType::I32,
    PrimitiveType::I64,
    PrimitiveType::F32,
    PrimitiveType::F64,
    PrimitiveType::Fixed32,
    PrimitiveType::Fixed64,
    PrimitiveType::Void,
];

const SEMANTICS: [SemanticType; 6] = [
    SemanticType::String,
    SemanticType::Bytes,
    SemanticType::Rgb,
    SemanticType::Uuid,
    SemanticType::Timestamp,
    SemanticType::Hash,
];

impl Reader<'_> {
    /// A type of its own; its outermost kind is at level 1.
    pub fn whole_type(&mut self) -> Read<ResolvedType> {
        self.type_at(1)
    }

    /// An expression of its own.
    pub fn whole_expression(&mut self) -> Read<TypeExpr> {
        self.expression_at(1)
    }

    pub fn whole_encoding(&mut self) -> Read<Encoding> {
        self.encoding_at(1)
    }

    fn encoding_at(&mut self, level: u32) -> Read<Encoding> {
        Ok(match self.kind(ENCODING_LIMIT, level)? {
            0 => Encoding::Default,
            1 => Encoding::Varint,
            2 => Encoding::ZigZag,
            _ => Encoding::Delta(Box::new(self.encoding_at(level + 1)?)),
        })
    }

    fn type_at(&mut self, level: u32) -> Read<ResolvedType> {
        let kind = self.kind(TYPE_KIND_LIMIT, level)?;
        Ok(match kind {
            0 => ResolvedType::Primitive(self.primitive()?),
            1 => ResolvedType::SubByte(self.sub_byte()?),
            2 => ResolvedType::Semantic(self.semantic()?),
            3 => ResolvedType::Named(TypeId(self.id()?)),
            4 => ResolvedType::Optional(self.part(level)?),
            5 => ResolvedType::Array(self.part(level)?),
            6 => ResolvedType::FixedArray(self.part(level)?, self.number(u64::MAX)?),
            7 => ResolvedType::Set(self.part(level)?),
            8 => ResolvedType::Map(self.part(level)?, self.part(level)?),
            9 => ResolvedType::Result(self.part(level)?, self.part(level)?),
            10 => ResolvedType::Vec2(self.part(level)?),
            11 => ResolvedType::Vec3(self.part(level)?),
            12 => ResolvedType::Vec4(self.part(level)?),
            13 => ResolvedType::Quat(self.part(level)?),
            14 => ResolvedType::Mat3(self.part(level)?),
            15 => ResolvedType::Mat4(self.part(level)?),
            _ => ResolvedType::BitsInline(self.names()?),
        })
    }

    fn part(&mut self, level: u32) -> Read<Box<ResolvedType>> {
        self.type_at(level + 1).map(Box::new)
    }

    fn expression_at(&mut self, level: u32) -> Read<TypeExpr> {
        let kind = self.kind(EXPRESSION_KIND_LIMIT, level)?;
        Ok(match kind {
            0 => TypeExpr::Primitive(self.primitive()?),
            1 => TypeExpr::SubByte(self.sub_byte()?),
            2 => TypeExpr::Semantic(self.semantic()?),
            3 => TypeExpr::Named(self.name()?),
            4 => TypeExpr::Optional(self.branch(level)?),
            5 => TypeExpr::Array(self.branch(level)?),
            6 => TypeExpr::FixedArray(self.branch(level)?, self.number(u64::MAX)?),
            7 => TypeExpr::Set(self.branch(level)?),
            8 => TypeExpr::Map(self.branch(level)?, self.branch(level)?),
            9 => TypeExpr::Result(self.branch(level)?, self.branch(level)?),
            10 => TypeExpr::Vec2(self.branch(level)?),
            11 => TypeExpr::Vec3(self.branch(level)?),
            12 => TypeExpr::Vec4(self.branch(level)?),
            13 => TypeExpr::Quat(self.branch(level)?),
            14 => TypeExpr::Mat3(self.branch(level)?),
            15 => TypeExpr::Mat4(self.branch(level)?),
            16 => TypeExpr::BitsInline(self.names()?),
            17 => self.qualified()?,
            _ => TypeExpr::Generic(self.name()?, self.branch(level)?),
        })
    }

    fn branch(&mut self, level: u32) -> Read<Box<Spanned<TypeExpr>>> {
        let node = self.expression_at(level + 1)?;
        Ok(Box::new(Spanned::new(node, Span::empty(0))))
    }

    /// The number is that of the joined name, so the text is parted at its dot.
    fn qualified(&mut self) -> Read<TypeExpr> {
        let joined = self.name()?;
        let (space, name) = joined.split_once('.').expect("every name has a dot");
        Ok(TypeExpr::Qualified(SmolStr::new(space), SmolStr::new(name)))
    }

    fn primitive(&mut self) -> Read<PrimitiveType> {
        Ok(PRIMITIVES[self.number(PRIMITIVE_LIMIT)? as usize])
    }

    fn semantic(&mut self) -> Read<SemanticType> {
        Ok(SEMANTICS[self.number(SEMANTIC_LIMIT)? as usize])
    }

    fn sub_byte(&mut self) -> Read<SubByteType> {
        let signed = self.flag()?;
        let bits = self.number(BYTE_LIMIT)? as u8;
        Ok(SubByteType { signed, bits })
    }
}
