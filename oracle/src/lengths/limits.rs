//! What the schemas had to do with arrays and their limits, counted.

use std::fmt;

use super::clauses::Facts;
use super::others;
use super::parts::{leading_back, names_of};
use super::rules::{has_empty_elements, lengths_of_slots};
use crate::answer::moved::{has_limited, take_out_limits};
use crate::answer::sizes::table_of;
use crate::answer::Bearing;
use crate::format::{Edition, Layout};
use crate::ir::{CompiledSchema, TypeDef};

/// Fields that have a limit of elements: by kind, and by what an element comes to.
const KINDS: [&str; 3] = ["Array", "Set", "Map"];
const ELEMENTS: [&str; 3] = ["with a largest", "without largest", "of no bits"];

#[derive(Debug, Clone, Default)]
pub struct LimitsMet {
    /// Schemas by a field that was worked out.
    fields: [[u64; ELEMENTS.len()]; KINDS.len()],
    /// Schemas with a newtype that leads back to itself through elements.
    newtypes: u64,
    /// Schemas with an element that has no length.
    empty: u64,
    /// Schemas where something leads back through limited elements alone.
    back: u64,
    /// Declared messages and unions that have other lengths without limits.
    lengths: u64,
    /// Declared messages and unions that have another row without limits.
    rows: u64,
}

impl LimitsMet {
    pub fn count(
        &mut self,
        schema: &CompiledSchema,
        facts: &Facts,
        layout: Layout,
        noted: &Bearing,
    ) {
        self.newtypes += u64::from(has_newtype_back(schema));
        let empty = has_empty_elements(schema, &facts.slots, &facts.lengths);
        self.empty += u64::from(empty);
        if !has_limited(schema) {
            return;
        }
        for (row, there) in self.fields.iter_mut().zip(noted.elements) {
            for (count, there) in row.iter_mut().zip(there) {
                *count += u64::from(there);
            }
        }
        let mut plain = schema.clone();
        take_out_limits(&mut plain);
        self.back += u64::from(leading_back(&plain) != facts.back);
        self.lengths += others(facts, &lengths_of_slots(&plain, layout));
        self.rows += other_rows(schema, &plain, facts, layout);
    }

    /// What is counted, and once in how many schemas it has to be met.
    pub fn floors(&self, edition: Edition) -> Vec<(String, u64, u64)> {
        let mut floors = vec![
            ("newtypes back through elements".into(), self.newtypes, 50),
            ("elements without lengths".into(), self.empty, 50),
        ];
        if edition == Edition::One {
            return floors;
        }
        for (kind, row) in KINDS.iter().zip(&self.fields) {
            for (element, &count) in ELEMENTS.iter().zip(row) {
                let what = format!("limited {kind}, elements {element}");
                floors.push((what, count, 50));
            }
        }
        floors.extend([
            ("back through limited elements".into(), self.back, 50),
            ("other lengths without limits".into(), self.lengths, 20),
            ("other rows without limits".into(), self.rows, 20),
        ]);
        floors
    }

    pub fn add(&mut self, other: &Self) {
        for (row, more) in self.fields.iter_mut().zip(other.fields) {
            let counts = row.iter_mut().zip(more);
            counts.for_each(|(count, more)| *count += more);
        }
        let pairs = [
            (&mut self.newtypes, other.newtypes),
            (&mut self.empty, other.empty),
            (&mut self.back, other.back),
            (&mut self.lengths, other.lengths),
            (&mut self.rows, other.rows),
        ];
        pairs.into_iter().for_each(|(count, more)| *count += more);
    }
}

fn has_newtype_back(schema: &CompiledSchema) -> bool {
    let mut definitions = schema.registry.iter();
    definitions.any(|(id, definition)| {
        let slot = id.index() as usize;
        matches!(definition, TypeDef::Newtype(_)) && names_itself(schema, slot)
    })
}

/// Whether a slot is named by what it names, elements included.
fn names_itself(schema: &CompiledSchema, slot: usize) -> bool {
    let mut seen = vec![false; schema.registry.len()];
    let mut open = names_of(schema, slot);
    while let Some(name) = open.pop() {
        if let Some(mark) = seen.get_mut(name) {
            if !std::mem::replace(mark, true) {
                open.extend(names_of(schema, name));
            }
        }
    }
    seen[slot]
}

fn other_rows(
    schema: &CompiledSchema,
    plain: &CompiledSchema,
    facts: &Facts,
    layout: Layout,
) -> u64 {
    let tables = [schema, plain].map(|schema| table_of(schema, layout).ok());
    let [Some(limited), Some(plain)] = tables else {
        return 0;
    };
    let row = |table: &[u64], slot: usize| table[3 * slot..3 * slot + 3].to_vec();
    let slots = facts.slots.iter();
    let others = slots.filter(|&&slot| row(&limited, slot) != row(&plain, slot));
    others.count() as u64
}

impl fmt::Display for LimitsMet {
    fn fmt(&self, out: &mut fmt::Formatter<'_>) -> fmt::Result {
        write!(
            out,
            "; newtypes back through elements {}, elements without lengths {}",
            self.newtypes, self.empty
        )?;
        // Edition one has no limits.
        if self.fields == [[0; 3]; 3] {
            return Ok(());
        }
        write!(
            out,
            "; limited Array, Set and Map, elements with a largest, without and of no bits {:?}, \
             back through them {}, other lengths {} and rows {} without limits",
            self.fields, self.back, self.lengths, self.rows
        )
    }
}
