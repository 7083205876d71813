//! Trait fields by the rules of document 01: what an expression means, and
//! whether a message has a field of that name and type. Written apart from the
//! upstream check, and held against it.

use crate::ast::TypeExpr;
use crate::ir::{
    CompiledSchema, FieldDef, GenericAliasDef, ResolvedType, TypeDef, TypeId, POISON_TYPE_ID,
};
use crate::smol_str::SmolStr;

/// Unfound names mean this.
const UNFOUND: ResolvedType = ResolvedType::Named(POISON_TYPE_ID);

/// Where an expression stands: parameters and what they mean.
pub struct Scope<'a> {
    schema: &'a CompiledSchema,
    parameters: Vec<&'a SmolStr>,
    arguments: &'a [ResolvedType],
}

impl<'a> Scope<'a> {
    /// The argument of a parameter, if the name is one that has it.
    pub fn argument(&self, name: &SmolStr) -> Option<&'a ResolvedType> {
        let position = self.parameters.iter().position(|&p| p == name)?;
        self.arguments.get(position)
    }

    fn resolved(&self, name: &str) -> ResolvedType {
        match self.schema.find_type(name) {
            Some((id, _)) => ResolvedType::Named(id),
            None => UNFOUND,
        }
    }

    pub fn meaning(&self, expression: &TypeExpr) -> ResolvedType {
        let part = |part: &TypeExpr| Box::new(self.meaning(part));
        match expression {
            TypeExpr::Primitive(which) => ResolvedType::Primitive(*which),
            TypeExpr::SubByte(which) => ResolvedType::SubByte(*which),
            TypeExpr::Semantic(which) => ResolvedType::Semantic(*which),
            TypeExpr::BitsInline(names) => ResolvedType::BitsInline(names.clone()),
            TypeExpr::Named(name) => match self.argument(name) {
                Some(argument) => argument.clone(),
                None => self.resolved(name),
            },
            TypeExpr::Qualified(space, name) => self.resolved(&format!("{space}.{name}")),
            TypeExpr::Generic(name, argument) => self.generic(name, &argument.node),
            TypeExpr::Optional(inner) => ResolvedType::Optional(part(&inner.node)),
            TypeExpr::Array(inner) => ResolvedType::Array(part(&inner.node)),
            TypeExpr::FixedArray(inner, size) => ResolvedType::FixedArray(part(&inner.node), *size),
            TypeExpr::Set(inner) => ResolvedType::Set(part(&inner.node)),
            TypeExpr::Map(key, value) => ResolvedType::Map(part(&key.node), part(&value.node)),
            TypeExpr::Result(ok, err) => ResolvedType::Result(part(&ok.node), part(&err.node)),
            TypeExpr::Vec2(inner) => ResolvedType::Vec2(part(&inner.node)),
            TypeExpr::Vec3(inner) => ResolvedType::Vec3(part(&inner.node)),
            TypeExpr::Vec4(inner) => ResolvedType::Vec4(part(&inner.node)),
            TypeExpr::Quat(inner) => ResolvedType::Quat(part(&inner.node)),
            TypeExpr::Mat3(inner) => ResolvedType::Mat3(part(&inner.node)),
            TypeExpr::Mat4(inner) => ResolvedType::Mat4(part(&inner.node)),
        }
    }

    /// The target of the alias, with the argument, if that is a name.
    fn generic(&self, name: &SmolStr, argument: &TypeExpr) -> ResolvedType {
        let Some((_, TypeDef::GenericAlias(alias))) = self.schema.find_type(name) else {
            return UNFOUND;
        };
        let argument = self.meaning(argument);
        match self.target(alias, argument) {
            ResolvedType::Named(id) => ResolvedType::Named(id),
            _ => UNFOUND,
        }
    }

    fn target(&self, alias: &GenericAliasDef, argument: ResolvedType) -> ResolvedType {
        let scope = Scope {
            schema: self.schema,
            parameters: alias.type_params.iter().collect(),
            arguments: &[argument],
        };
        scope.meaning(&alias.target_type)
    }
}

/// A trait field that an impl's target has to have.
pub struct Wanted<'a> {
    /// The impl's slot, and the field's index in the trait.
    pub slot: u32,
    pub index: u32,
    pub scope: &'a Scope<'a>,
    pub expression: &'a TypeExpr,
    pub meaning: ResolvedType,
    name: &'a SmolStr,
    fields: &'a [FieldDef],
}

impl<'a> Wanted<'a> {
    /// The types of the target's fields of this name, in order.
    pub fn named_alike(&self) -> impl Iterator<Item = &'a ResolvedType> + '_ {
        let alike = self.fields.iter().filter(|field| field.name == *self.name);
        alike.map(|field| &field.resolved_type)
    }

    pub fn found(&self) -> bool {
        self.named_alike().any(|ty| *ty == self.meaning)
    }

    /// Whether the type stands under another name.
    pub fn misnamed(&self) -> bool {
        let mut fields = self.fields.iter();
        fields.any(|field| field.name != *self.name && field.resolved_type == self.meaning)
    }
}

/// Calls `visit` with each trait field of each impl that is searched for.
pub fn each_wanted(schema: &CompiledSchema, visit: &mut dyn FnMut(&Wanted)) {
    for (id, body) in schema.impls() {
        let trait_id = schema.registry.impl_trait_id(id);
        let definition = trait_id.and_then(|id| schema.registry.get(id));
        let (Some(TypeDef::Trait(definition)), Some(fields)) =
            (definition, target_fields(schema, &body.target_type))
        else {
            continue;
        };
        if body.type_args.len() != definition.type_params.len() {
            continue;
        }
        let parameters = definition.type_params.iter().map(|p| &p.name.node);
        let scope = Scope {
            schema,
            parameters: parameters.collect(),
            arguments: &body.type_args,
        };
        for (index, field) in definition.fields.iter().enumerate() {
            visit(&Wanted {
                slot: id.index(),
                index: index as u32,
                scope: &scope,
                expression: &field.unresolved_ty,
                meaning: scope.meaning(&field.unresolved_ty),
                name: &field.name,
                fields,
            });
        }
    }
}

fn target_fields<'a>(schema: &'a CompiledSchema, target: &ResolvedType) -> Option<&'a [FieldDef]> {
    let ResolvedType::Named(id) = target else {
        return None;
    };
    match schema.registry.get(TypeId(id.index())) {
        Some(TypeDef::Message(message)) => Some(&message.fields),
        _ => None,
    }
}
