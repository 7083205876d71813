//! Types and expressions taken apart: the number of a kind, and its parts.

use crate::ast::TypeExpr;
use crate::ir::ResolvedType;

/// The kind's number in an image.
pub fn type_kind(ty: &ResolvedType) -> usize {
    match ty {
        ResolvedType::Primitive(_) => 0,
        ResolvedType::SubByte(_) => 1,
        ResolvedType::Semantic(_) => 2,
        ResolvedType::Named(_) => 3,
        ResolvedType::Optional(_) => 4,
        ResolvedType::Array(_) => 5,
        ResolvedType::FixedArray(..) => 6,
        ResolvedType::Set(_) => 7,
        ResolvedType::Map(..) => 8,
        ResolvedType::Result(..) => 9,
        ResolvedType::Vec2(_) => 10,
        ResolvedType::Vec3(_) => 11,
        ResolvedType::Vec4(_) => 12,
        ResolvedType::Quat(_) => 13,
        ResolvedType::Mat3(_) => 14,
        ResolvedType::Mat4(_) => 15,
        ResolvedType::BitsInline(_) => 16,
    }
}

pub fn type_parts(ty: &ResolvedType) -> Vec<&ResolvedType> {
    match ty {
        ResolvedType::Optional(part)
        | ResolvedType::Array(part)
        | ResolvedType::FixedArray(part, _)
        | ResolvedType::Set(part)
        | ResolvedType::Vec2(part)
        | ResolvedType::Vec3(part)
        | ResolvedType::Vec4(part)
        | ResolvedType::Quat(part)
        | ResolvedType::Mat3(part)
        | ResolvedType::Mat4(part) => vec![part],
        ResolvedType::Map(left, right) | ResolvedType::Result(left, right) => vec![left, right],
        _ => vec![],
    }
}

/// Calls `visit` with a type and all that it holds.
pub fn each_node<'t>(ty: &'t ResolvedType, visit: &mut dyn FnMut(&'t ResolvedType)) {
    visit(ty);
    for part in type_parts(ty) {
        each_node(part, visit);
    }
}

pub fn expression_kind(expression: &TypeExpr) -> usize {
    match expression {
        TypeExpr::Primitive(_) => 0,
        TypeExpr::SubByte(_) => 1,
        TypeExpr::Semantic(_) => 2,
        TypeExpr::Named(_) => 3,
        TypeExpr::Optional(_) => 4,
        TypeExpr::Array(_) => 5,
        TypeExpr::FixedArray(..) => 6,
        TypeExpr::Set(_) => 7,
        TypeExpr::Map(..) => 8,
        TypeExpr::Result(..) => 9,
        TypeExpr::Vec2(_) => 10,
        TypeExpr::Vec3(_) => 11,
        TypeExpr::Vec4(_) => 12,
        TypeExpr::Quat(_) => 13,
        TypeExpr::Mat3(_) => 14,
        TypeExpr::Mat4(_) => 15,
        TypeExpr::BitsInline(_) => 16,
        TypeExpr::Qualified(..) => 17,
        TypeExpr::Generic(..) => 18,
    }
}

/// The parts of an expression; a generic's is its argument.
pub fn expression_parts(expression: &TypeExpr) -> Vec<&TypeExpr> {
    match expression {
        TypeExpr::Optional(part)
        | TypeExpr::Array(part)
        | TypeExpr::FixedArray(part, _)
        | TypeExpr::Set(part)
        | TypeExpr::Vec2(part)
        | TypeExpr::Vec3(part)
        | TypeExpr::Vec4(part)
        | TypeExpr::Quat(part)
        | TypeExpr::Mat3(part)
        | TypeExpr::Mat4(part)
        | TypeExpr::Generic(_, part) => vec![&part.node],
        TypeExpr::Map(left, right) | TypeExpr::Result(left, right) => {
            vec![&left.node, &right.node]
        }
        _ => vec![],
    }
}
