//! Refusals 8 and 9: newtypes and aliases that lead back to themselves.

use crate::ast::TypeExpr;
use crate::ir::{CompiledSchema, ResolvedType, TypeDef, TypeId, TypeRegistry};

/// The lowest newtype that reaches itself by terminal types alone.
pub fn newtype_on_loop(registry: &TypeRegistry) -> Option<usize> {
    let is_newtype = |id: TypeId| matches!(registry.get(id), Some(TypeDef::Newtype(_)));
    let mut next = vec![Vec::new(); registry.len()];
    for (id, definition) in registry.iter() {
        if let TypeDef::Newtype(newtype) = definition {
            let mut ids = Vec::new();
            names_in_type(&newtype.terminal_type, &mut ids);
            ids.retain(|&id| is_newtype(id));
            next[id.0 as usize] = ids.iter().map(|id| id.0 as usize).collect();
        }
    }
    lowest_on_loop(&next)
}

/// The lowest alias that reaches itself by the generics in its target.
pub fn alias_on_loop(schema: &CompiledSchema) -> Option<usize> {
    let mut next = vec![Vec::new(); schema.registry.len()];
    for (id, definition) in schema.registry.iter() {
        if let TypeDef::GenericAlias(alias) = definition {
            aliases_in_expression(&alias.target_type, schema, &mut next[id.0 as usize]);
        }
    }
    lowest_on_loop(&next)
}

/// Ids named in a type; elements of Array, Map and Set are not followed.
fn names_in_type(ty: &ResolvedType, ids: &mut Vec<TypeId>) {
    match ty {
        ResolvedType::Named(id) => ids.push(*id),
        ResolvedType::Optional(part)
        | ResolvedType::FixedArray(part, _)
        | ResolvedType::Vec2(part)
        | ResolvedType::Vec3(part)
        | ResolvedType::Vec4(part)
        | ResolvedType::Quat(part)
        | ResolvedType::Mat3(part)
        | ResolvedType::Mat4(part) => names_in_type(part, ids),
        ResolvedType::Result(ok, err) => {
            names_in_type(ok, ids);
            names_in_type(err, ids);
        }
        ResolvedType::Array(_) | ResolvedType::Set(_) | ResolvedType::Map(_, _) => {}
        ResolvedType::Primitive(_)
        | ResolvedType::SubByte(_)
        | ResolvedType::Semantic(_)
        | ResolvedType::BitsInline(_) => {}
    }
}

/// Slots of the aliases that generics anywhere in an expression find.
fn aliases_in_expression(expr: &TypeExpr, schema: &CompiledSchema, slots: &mut Vec<usize>) {
    match expr {
        TypeExpr::Generic(name, argument) => {
            if let Some((id, TypeDef::GenericAlias(_))) = schema.find_type(name) {
                slots.push(id.0 as usize);
            }
            aliases_in_expression(&argument.node, schema, slots);
        }
        TypeExpr::Optional(part)
        | TypeExpr::Array(part)
        | TypeExpr::FixedArray(part, _)
        | TypeExpr::Set(part)
        | TypeExpr::Vec2(part)
        | TypeExpr::Vec3(part)
        | TypeExpr::Vec4(part)
        | TypeExpr::Quat(part)
        | TypeExpr::Mat3(part)
        | TypeExpr::Mat4(part) => aliases_in_expression(&part.node, schema, slots),
        TypeExpr::Map(left, right) | TypeExpr::Result(left, right) => {
            aliases_in_expression(&left.node, schema, slots);
            aliases_in_expression(&right.node, schema, slots);
        }
        TypeExpr::Primitive(_)
        | TypeExpr::SubByte(_)
        | TypeExpr::Semantic(_)
        | TypeExpr::Named(_)
        | TypeExpr::Qualified(_, _)
        | TypeExpr::BitsInline(_) => {}
    }
}

/// The lowest node that reaches itself, by Tarjan's strongly connected parts:
/// a node is on a loop if its part has a second node or it names itself.
fn lowest_on_loop(next: &[Vec<usize>]) -> Option<usize> {
    let mut search = Search {
        next,
        order: vec![None; next.len()],
        low: vec![0; next.len()],
        open: Vec::new(),
        is_open: vec![false; next.len()],
        met: 0,
        lowest: None,
    };
    for (node, others) in next.iter().enumerate() {
        if search.order[node].is_none() && !others.is_empty() {
            search.visit(node);
        }
    }
    search.lowest
}

struct Search<'a> {
    next: &'a [Vec<usize>],
    /// When each node was met, and the earliest open node it leads back to.
    order: Vec<Option<usize>>,
    low: Vec<usize>,
    /// Nodes met whose part is not complete.
    open: Vec<usize>,
    is_open: Vec<bool>,
    met: usize,
    lowest: Option<usize>,
}

impl Search<'_> {
    fn visit(&mut self, node: usize) {
        let met = self.met;
        self.met += 1;
        self.order[node] = Some(met);
        self.low[node] = met;
        self.open.push(node);
        self.is_open[node] = true;
        let next = self.next;
        for &other in &next[node] {
            match self.order[other] {
                None => {
                    self.visit(other);
                    self.low[node] = self.low[node].min(self.low[other]);
                }
                Some(order) if self.is_open[other] => {
                    self.low[node] = self.low[node].min(order);
                }
                Some(_) => {}
            }
        }
        if self.low[node] == met {
            self.close_part(node);
        }
    }

    fn close_part(&mut self, first: usize) {
        let from = self.open.iter().rposition(|&node| node == first);
        let part = self.open.split_off(from.expect("the node is open"));
        for &node in &part {
            self.is_open[node] = false;
        }
        if part.len() > 1 || self.next[first].contains(&first) {
            let lowest = part.into_iter().min().expect("a part has a node");
            self.lowest = Some(self.lowest.map_or(lowest, |found| found.min(lowest)));
        }
    }
}
