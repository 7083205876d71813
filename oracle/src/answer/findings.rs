//! Findings as document 01 numbers them, from the upstream diagnostics.
//!
//! A diagnostic tells its span and its text, not its slot. So before the
//! check every span is replaced by a mark that tells slot and use; the check
//! only copies spans, and each mark is turned back afterwards.

use std::collections::{HashMap, VecDeque};

use crate::diagnostic::{Diagnostic, ErrorClass};
use crate::ir::{CompiledSchema, ConfigDef, ResolvedAnnotations, TypeDef, TypeId};
use crate::smol_str::SmolStr;
use crate::span::Span;
use crate::typeck::check;

/// Class, slot, span offset, span length, a, b.
pub type Finding = [u32; 6];

/// The true spans, by slot and use.
pub type Spans = HashMap<(u32, u32), Span>;

const OWN: u32 = 0;
const TRAIT: u32 = 1;

/// Marks the spans of messages and impls, and answers what they were.
pub fn mark_spans(schema: &mut CompiledSchema) -> Spans {
    let mut spans = Spans::new();
    for slot in 0..schema.registry.len() as u32 {
        let id = TypeId(slot);
        if let Some(span) = schema.registry.impl_trait_span(id) {
            spans.insert((slot, TRAIT), span);
            schema.registry.set_impl_trait_span(id, mark(slot, TRAIT));
        }
        let span = match schema.registry.get_mut(id) {
            Some(TypeDef::Message(message)) => &mut message.span,
            Some(TypeDef::Impl(body)) => &mut body.span,
            _ => continue,
        };
        spans.insert((slot, OWN), *span);
        *span = mark(slot, OWN);
    }
    spans
}

fn mark(slot: u32, which: u32) -> Span {
    Span {
        offset: slot,
        len: which,
    }
}

/// The findings of a checked schema, in the order of the check.
pub fn findings(
    schema: &CompiledSchema,
    spans: &Spans,
    diagnostics: &[Diagnostic],
) -> Vec<Finding> {
    let mut lacking = lacking_fields(schema, diagnostics);
    let one = |diagnostic: &Diagnostic| {
        let slot = diagnostic.span.offset;
        let span = spans[&(slot, diagnostic.span.len)];
        let class = class_of(diagnostic);
        let (a, b) = match class {
            2 => told_arity(&diagnostic.message),
            4 => (next_lacking(&mut lacking, slot), 0),
            _ => (0, 0),
        };
        [class, slot, span.offset, span.len, a, b]
    };
    diagnostics.iter().map(one).collect()
}

fn class_of(diagnostic: &Diagnostic) -> u32 {
    let text = &diagnostic.message;
    match diagnostic.class {
        ErrorClass::RecursiveTypeInfinite => 1,
        ErrorClass::UnresolvedType if text.contains("type parameters but impl") => 2,
        ErrorClass::UnresolvedType if text.ends_with("is not a message type") => 3,
        ErrorClass::UnresolvedType if text.contains("missing required trait field") => 4,
        _ => panic!("the check reports nothing else: {diagnostic:?}"),
    }
}

/// The two counts in "... has 2 type parameters but impl provides 1".
fn told_arity(text: &str) -> (u32, u32) {
    let mut counts = text.split(' ').filter_map(|word| word.parse().ok());
    let mut count = || counts.next().expect("the text tells two counts");
    (count(), count())
}

type Lacking = HashMap<u32, VecDeque<u32>>;

fn next_lacking(lacking: &mut Lacking, slot: u32) -> u32 {
    let fields = lacking.get_mut(&slot).and_then(VecDeque::pop_front);
    fields.expect("each finding has its field")
}

/// Per impl with a finding of class 4: the trait fields that are lacking.
fn lacking_fields(schema: &CompiledSchema, diagnostics: &[Diagnostic]) -> Lacking {
    let mut counts: HashMap<u32, usize> = HashMap::new();
    for diagnostic in diagnostics {
        if class_of(diagnostic) == 4 {
            *counts.entry(diagnostic.span.offset).or_default() += 1;
        }
    }
    let fields = |(slot, count)| (slot, lacking_of(schema, TypeId(slot), count));
    counts.into_iter().map(fields).collect()
}

/// Which `count` of the trait's fields the target of an impl lacks. Names
/// may repeat, so each field is checked alone unless all are lacking.
fn lacking_of(schema: &CompiledSchema, id: TypeId, count: usize) -> VecDeque<u32> {
    let trait_id = schema.registry.impl_trait_id(id);
    let trait_id = trait_id.expect("an impl with findings has a trait");
    let Some(TypeDef::Trait(definition)) = schema.registry.get(trait_id) else {
        panic!("an impl with findings has a trait");
    };
    let all = 0..definition.fields.len() as u32;
    if all.len() == count {
        return all.collect();
    }
    let mut alone = only_impl(schema, id);
    let lacking: VecDeque<u32> = all
        .filter(|&field| {
            if let Some(TypeDef::Trait(copy)) = alone.registry.get_mut(trait_id) {
                copy.fields = vec![definition.fields[field as usize].clone()];
            }
            !check(&mut alone).is_empty()
        })
        .collect();
    assert_eq!(lacking.len(), count, "fields checked alone and together");
    lacking
}

/// The schema without declarations and other impls. Each of these becomes a
/// config, which is no message, alias or trait either.
fn only_impl(schema: &CompiledSchema, id: TypeId) -> CompiledSchema {
    let mut alone = schema.clone();
    alone.declarations.clear();
    let others: Vec<TypeId> = schema.impls().map(|(other, _)| other).collect();
    for other in others {
        if other != id {
            alone.registry.fill_stub(other, config());
        }
    }
    alone
}

fn config() -> TypeDef {
    TypeDef::Config(ConfigDef {
        name: SmolStr::default(),
        span: Span::empty(0),
        fields: Vec::new(),
        annotations: ResolvedAnnotations::default(),
    })
}
