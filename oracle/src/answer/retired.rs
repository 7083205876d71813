//! What retired ones change, counted by images: widths that they hold and widths
//! that they leave alone, rows that hang on them, and sizes that pass the limit
//! by them alone. A wrong width is seen only if it bears on an answer, so each
//! count has a floor.

use std::fmt;

use super::counts::{add_row, add_there, named};
use super::moved::take_out_retired;
use super::sizes::table_of;
use super::widths::{enum_bits, flags_bytes, highest_bit, highest_ordinal};
use super::{Answer, Whole};
use crate::ast::EnumBacking;
use crate::format::Entry;
use crate::import::read;
use crate::ir::{CompiledSchema, EnumDef, FlagsDef, TypeDef};
use crate::lengths::rules::declared;

/// Declared enums without backing that have retired ones. At the last two a
/// retired one is the highest.
const ENUMS: [&str; 7] = [
    "wider",
    "not wider",
    "none live",
    "non_exhaustive, wider",
    "non_exhaustive, still 8",
    "highest 2^k - 1",
    "highest 2^k",
];

/// Declared enums whose retired ones would take more bits, by their backing.
const BACKED: [&str; 4] = ["U8", "U16", "U32", "U64"];

/// Bytes of declared flags, by the live ones alone and by all.
const STEPS: [(u64, u64); 6] = [(1, 2), (1, 4), (1, 8), (2, 4), (2, 8), (4, 8)];

/// Declared flags that have retired ones.
const FLAGS: [&str; 2] = ["not wider", "none live"];

/// Retired bits that are the highest of declared flags.
const BORDERS: [u32; 6] = [7, 8, 15, 16, 31, 32];

/// Slots that are not declared, and would be wider by their retired ones.
const UNDECLARED: [&str; 2] = ["enum", "flags"];

/// Declared slots whose row is another than by live ones alone.
pub const ROWS: [&str; 2] = ["message", "union"];

/// Refusals of images that are accepted by live ones alone.
const REFUSED: [&str; 2] = ["11", "14"];

/// Images of a run for each of which a count has to be one more.
const IMAGES_EACH: u64 = 1_000;

#[derive(Debug, Clone, Default, PartialEq, Eq)]
pub struct RetiredCounts {
    /// Accepted images by a slot that they have.
    slots: SlotCounts,
    /// Accepted images by a row that they have.
    rows: [u64; ROWS.len()],
    refused: [u64; REFUSED.len()],
}

impl RetiredCounts {
    /// Counts an image of edition two by its answer, and by that of its live ones
    /// alone.
    pub fn count(&mut self, image: &[u8], entry: Entry, whole: &Whole) {
        let (Ok(answer), Ok(imported)) = (whole.sizes_answer(u64::MAX), read(image, entry.edition))
        else {
            return;
        };
        let schema = &imported.schema;
        if !has_retired(schema) {
            return;
        }
        let mut alone = schema.clone();
        take_out_retired(&mut alone);
        let table = match is_wider(schema, &alone) {
            true => table_of(&alone, entry.layout).ok(),
            false => None,
        };
        match (answer, table) {
            (Answer::Accepted { sizes, .. }, table) => {
                self.slots.add(&SlotCounts::of(schema, &alone).once());
                let table = table.as_ref().unwrap_or(&sizes);
                add_there(&mut self.rows, &other_rows(schema, &sizes, table));
            }
            (Answer::Refused { number, .. }, Some(_)) => {
                add_there(&mut self.refused, &[11, 14].map(|due| due == number));
            }
            _ => {}
        }
    }

    pub fn add(&mut self, other: &RetiredCounts) {
        self.slots.add(&other.slots);
        add_row(&mut self.rows, &other.rows);
        add_row(&mut self.refused, &other.refused);
    }

    /// All counts, what each is of, and the least that each has to be in a run of
    /// so many images.
    pub fn held(&self, images: u64) -> Vec<(String, u64, u64)> {
        let floor = images / IMAGES_EACH;
        let all = self.each().into_iter();
        all.map(|(what, count)| (what, count, floor)).collect()
    }

    /// All counts, and what each is of.
    fn each(&self) -> Vec<(String, u64)> {
        let mut all = self.slots.each();
        named(&mut all, "retired ones in the row of a", &ROWS, &self.rows);
        let what = "accepted by live ones alone, but refused";
        named(&mut all, what, &REFUSED, &self.refused);
        all
    }
}

/// Slots of an image; of a run, images that have such a slot.
#[derive(Debug, Clone, Default, PartialEq, Eq)]
struct SlotCounts {
    enums: [u64; ENUMS.len()],
    backed: [u64; BACKED.len()],
    steps: [u64; STEPS.len()],
    flags: [u64; FLAGS.len()],
    borders: [u64; BORDERS.len()],
    undeclared: [u64; UNDECLARED.len()],
}

impl SlotCounts {
    /// Those of a schema; `alone` is the same without retired ones.
    fn of(schema: &CompiledSchema, alone: &CompiledSchema) -> Self {
        let mut counts = Self::default();
        let declared = declared(schema);
        for (id, definition) in schema.registry.iter() {
            let declared = declared[id.index() as usize];
            match (definition, alone.registry.get(id)) {
                (TypeDef::Enum(en), Some(TypeDef::Enum(live))) if !en.tombstones.is_empty() => {
                    counts.count_enum(en, live, declared);
                }
                (TypeDef::Flags(flags), Some(TypeDef::Flags(live)))
                    if !flags.tombstones.is_empty() =>
                {
                    counts.count_flags(flags, live, declared);
                }
                _ => {}
            }
        }
        counts
    }

    fn count_enum(&mut self, en: &EnumDef, live: &EnumDef, declared: bool) {
        let [bits, by_live] = [en, live].map(enum_bits);
        let [highest, highest_live] = [en, live].map(highest_ordinal);
        if !declared {
            self.undeclared[0] += u64::from(bits > by_live);
        } else if let Some(backing) = &en.backing {
            let more = highest.leading_zeros() < highest_live.leading_zeros();
            self.backed[backing_number(backing)] += u64::from(more);
        } else {
            let non_exhaustive = en.annotations.non_exhaustive;
            let above = highest > highest_live;
            let there = [
                bits > by_live,
                bits == by_live,
                live.variants.is_empty(),
                non_exhaustive && bits > by_live,
                non_exhaustive && bits == 8,
                above && (u64::from(highest) + 1).is_power_of_two(),
                above && highest > 1 && highest.is_power_of_two(),
            ];
            add_there(&mut self.enums, &there);
        }
    }

    fn count_flags(&mut self, flags: &FlagsDef, live: &FlagsDef, declared: bool) {
        let [bytes, by_live] = [flags, live].map(flags_bytes);
        if !declared {
            self.undeclared[1] += u64::from(bytes > by_live);
            return;
        }
        let step = STEPS.map(|step| step == (by_live, bytes));
        add_there(&mut self.steps, &step);
        let there = [bytes == by_live, live.bits.is_empty()];
        add_there(&mut self.flags, &there);
        let [highest, highest_live] = [flags, live].map(highest_bit);
        let border = BORDERS.map(|border| highest == border && highest > highest_live);
        add_there(&mut self.borders, &border);
    }

    /// One of each that there is.
    fn once(self) -> Self {
        let once = |count: u64| count.min(1);
        Self {
            enums: self.enums.map(once),
            backed: self.backed.map(once),
            steps: self.steps.map(once),
            flags: self.flags.map(once),
            borders: self.borders.map(once),
            undeclared: self.undeclared.map(once),
        }
    }

    fn add(&mut self, other: &SlotCounts) {
        add_row(&mut self.enums, &other.enums);
        add_row(&mut self.backed, &other.backed);
        add_row(&mut self.steps, &other.steps);
        add_row(&mut self.flags, &other.flags);
        add_row(&mut self.borders, &other.borders);
        add_row(&mut self.undeclared, &other.undeclared);
    }

    fn each(&self) -> Vec<(String, u64)> {
        let mut all = Vec::new();
        named(&mut all, "retired ones, enum,", &ENUMS, &self.enums);
        let what = "retired ones that take more bits, enum of";
        named(&mut all, what, &BACKED, &self.backed);
        for ((by_live, bytes), count) in STEPS.iter().zip(self.steps) {
            let what = format!("retired ones, flags, {bytes} bytes, not {by_live}");
            all.push((what, count));
        }
        named(&mut all, "retired ones, flags,", &FLAGS, &self.flags);
        for (border, count) in BORDERS.iter().zip(self.borders) {
            all.push((format!("retired ones, flags, highest {border}"), count));
        }
        let what = "retired ones that do not count, undeclared";
        named(&mut all, what, &UNDECLARED, &self.undeclared);
        all
    }
}

fn backing_number(backing: &EnumBacking) -> usize {
    match backing {
        EnumBacking::U8 => 0,
        EnumBacking::U16 => 1,
        EnumBacking::U32 => 2,
        EnumBacking::U64 => 3,
    }
}

fn has_retired(schema: &CompiledSchema) -> bool {
    let mut definitions = schema.registry.iter();
    definitions.any(|(_, definition)| match definition {
        TypeDef::Enum(en) => !en.tombstones.is_empty(),
        TypeDef::Flags(flags) => !flags.tombstones.is_empty(),
        _ => false,
    })
}

/// Whether a declared slot is wider than by its live ones alone; if none is,
/// nothing else is otherwise.
fn is_wider(schema: &CompiledSchema, alone: &CompiledSchema) -> bool {
    let mut ids = schema.declarations.iter();
    ids.any(|&id| width(schema.registry.get(id)) != width(alone.registry.get(id)))
}

fn width(definition: Option<&TypeDef>) -> u64 {
    match definition {
        Some(TypeDef::Enum(en)) => enum_bits(en),
        Some(TypeDef::Flags(flags)) => flags_bytes(flags),
        _ => 0,
    }
}

/// Whose rows are others, in the order of `ROWS`.
pub fn other_rows(schema: &CompiledSchema, sizes: &[u64], alone: &[u64]) -> [bool; ROWS.len()] {
    let mut there = [false; ROWS.len()];
    for (id, definition) in schema.registry.iter() {
        let at = 3 * id.index() as usize;
        let differs = sizes[at..at + 3] != alone[at..at + 3];
        match definition {
            TypeDef::Message(_) => there[0] |= differs,
            TypeDef::Union(_) => there[1] |= differs,
            _ => {}
        }
    }
    there
}

impl fmt::Display for RetiredCounts {
    fn fmt(&self, out: &mut fmt::Formatter<'_>) -> fmt::Result {
        for (what, count) in self.each() {
            writeln!(out, "{what}: {count}")?;
        }
        Ok(())
    }
}
