//! How long the upstream check takes, in type nodes visited or copied. Some
//! accepted schemas take exponential time; these are told here beforehand.

use super::parts::each_node;
use crate::ast::TypeExpr;
use crate::ir::{CompiledSchema, FieldDef, ImplDef, ResolvedType, TraitDef, TypeDef, TypeId};
use crate::smol_str::SmolStr;

/// The check of the image would take more than `STEP_LIMIT` steps.
#[derive(Debug, Clone, Copy, PartialEq, Eq)]
pub struct TooLong;

/// Most steps of an image that is still checked.
pub const STEP_LIMIT: u64 = 400_000;
/// The same where there are few images: chains of 512 slots that are declared
/// from the outermost on take millions.
pub const PATIENT_STEP_LIMIT: u64 = 20_000_000;

pub struct Steps {
    left: u64,
    /// Calls that stand one in another, now and at most.
    depth: u64,
    deepest: u64,
    /// Per slot: nodes of the types that working it out goes through.
    weights: Vec<u64>,
}

impl Steps {
    pub fn new(schema: &CompiledSchema, limit: u64) -> Self {
        let slots = 0..schema.registry.len() as u32;
        let weights = slots.map(|slot| match schema.registry.get(TypeId(slot)) {
            Some(definition) => weight(definition),
            None => 1,
        });
        Self {
            left: limit,
            depth: 0,
            deepest: 0,
            weights: weights.collect(),
        }
    }

    pub fn deepest(&self) -> u64 {
        self.deepest
    }

    /// A call begins within the one before it.
    pub fn enter(&mut self) {
        self.depth += 1;
        self.deepest = self.deepest.max(self.depth);
    }

    pub fn leave(&mut self) {
        self.depth -= 1;
    }

    fn charge(&mut self, steps: u64) -> Result<(), TooLong> {
        self.left = self.left.checked_sub(steps).ok_or(TooLong)?;
        Ok(())
    }

    /// One working-out of a slot.
    pub fn charge_slot(&mut self, id: TypeId) -> Result<(), TooLong> {
        self.charge(self.weights[id.index() as usize])
    }

    /// The searches for endless types and for trait fields.
    pub fn charge_findings(&mut self, schema: &CompiledSchema) -> Result<(), TooLong> {
        self.charge_recursion(schema)?;
        for (id, body) in schema.impls() {
            let trait_id = schema.registry.impl_trait_id(id);
            let definition = trait_id.and_then(|id| schema.registry.get(id));
            if let Some(TypeDef::Trait(definition)) = definition {
                self.charge_impl(schema, body, definition)?;
            }
        }
        Ok(())
    }

    /// Each declared message visits each slot that it reaches once.
    fn charge_recursion(&mut self, schema: &CompiledSchema) -> Result<(), TooLong> {
        let parts: Vec<Vec<u32>> = (0..self.weights.len() as u32)
            .map(|slot| schema.registry.get(TypeId(slot)).map_or(vec![], parts_of))
            .collect();
        let mut known = vec![None; self.weights.len()];
        for &id in &schema.declarations {
            if let Some(TypeDef::Message(_)) = schema.registry.get(id) {
                let slot = id.index() as usize;
                let reached = *known[slot].get_or_insert_with(|| self.reached(slot, &parts));
                self.charge(reached)?;
            }
        }
        Ok(())
    }

    fn reached(&self, from: usize, parts: &[Vec<u32>]) -> u64 {
        let mut seen = vec![false; parts.len()];
        let mut open = vec![from];
        let mut total = 0;
        while let Some(slot) = open.pop() {
            if slot < parts.len() && !seen[slot] {
                seen[slot] = true;
                total += self.weights[slot];
                open.extend(parts[slot].iter().map(|&part| part as usize));
            }
        }
        total
    }

    fn charge_impl(
        &mut self,
        schema: &CompiledSchema,
        body: &ImplDef,
        definition: &TraitDef,
    ) -> Result<(), TooLong> {
        let ResolvedType::Named(target) = body.target_type else {
            return Ok(());
        };
        let Some(TypeDef::Message(message)) = schema.registry.get(target) else {
            return Ok(());
        };
        if body.type_args.len() != definition.type_params.len() {
            return Ok(());
        }
        let parameters = definition.type_params.iter();
        let parameters: Vec<&SmolStr> = parameters.map(|p| &p.name.node).collect();
        let arguments: Vec<u64> = body.type_args.iter().map(nodes).collect();
        for field in &definition.fields {
            self.charge(message.fields.len() as u64)?;
            self.substitute(&field.unresolved_ty, &parameters, &arguments, schema)?;
        }
        Ok(())
    }

    /// Nodes of an expression with its arguments put in; all are charged.
    fn substitute(
        &mut self,
        expr: &TypeExpr,
        parameters: &[&SmolStr],
        arguments: &[u64],
        schema: &CompiledSchema,
    ) -> Result<u64, TooLong> {
        self.charge(1)?;
        let mut part = |expr: &TypeExpr| self.substitute(expr, parameters, arguments, schema);
        Ok(match expr {
            TypeExpr::Named(name) => {
                self.charge(parameters.len() as u64 / 4)?;
                let position = parameters.iter().position(|&p| p == name);
                let nodes = position.and_then(|at| arguments.get(at)).copied();
                self.charge(nodes.unwrap_or(1))?;
                nodes.unwrap_or(1)
            }
            TypeExpr::Generic(name, argument) => {
                let argument = part(&argument.node)?;
                if let Some((_, TypeDef::GenericAlias(alias))) = schema.find_type(name) {
                    let parameters: Vec<&SmolStr> = alias.type_params.iter().collect();
                    self.substitute(&alias.target_type, &parameters, &[argument], schema)?;
                }
                1
            }
            TypeExpr::Optional(inner)
            | TypeExpr::Array(inner)
            | TypeExpr::FixedArray(inner, _)
            | TypeExpr::Set(inner)
            | TypeExpr::Vec2(inner)
            | TypeExpr::Vec3(inner)
            | TypeExpr::Vec4(inner)
            | TypeExpr::Quat(inner)
            | TypeExpr::Mat3(inner)
            | TypeExpr::Mat4(inner) => 1 + part(&inner.node)?,
            TypeExpr::Map(left, right) | TypeExpr::Result(left, right) => {
                1 + part(&left.node)? + part(&right.node)?
            }
            TypeExpr::BitsInline(names) => 1 + names.len() as u64,
            _ => 1,
        })
    }
}

fn weight(definition: &TypeDef) -> u64 {
    let mut weight = 1;
    each_type(definition, &mut |ty| weight += nodes(ty));
    weight
}

fn parts_of(definition: &TypeDef) -> Vec<u32> {
    let mut ids = Vec::new();
    each_type(definition, &mut |ty| {
        each_node(ty, &mut |node| {
            if let ResolvedType::Named(id) = node {
                ids.push(id.index());
            }
        });
    });
    ids
}

/// The types that sizes or the search for endless types go through.
fn each_type(definition: &TypeDef, visit: &mut dyn FnMut(&ResolvedType)) {
    let mut fields = |fields: &[FieldDef]| fields.iter().for_each(|f| visit(&f.resolved_type));
    match definition {
        TypeDef::Message(message) => fields(&message.fields),
        TypeDef::Union(un) => un.variants.iter().for_each(|v| fields(&v.fields)),
        TypeDef::Newtype(newtype) => {
            visit(&newtype.inner_type);
            visit(&newtype.terminal_type);
        }
        _ => {}
    }
}

fn nodes(ty: &ResolvedType) -> u64 {
    let mut count = 0;
    each_node(ty, &mut |node| {
        count += match node {
            ResolvedType::BitsInline(names) => 1 + names.len() as u64,
            _ => 1,
        }
    });
    count
}
