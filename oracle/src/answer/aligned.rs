//! What the head board's layout changes, counted by images: which ends of
//! fields were rounded, what became of rows and refusals, which slots bring a
//! size. A wrong rounding is seen only if it bears on an answer, so each count
//! has a floor.

use std::fmt;

use super::brought::{bringing, brought};
use super::counts::{add_row, add_rows, add_there, named};
use super::rounding::{Rounding, BYTE, ENDS, OWNERS, PASSING};
use super::{Answer, Whole};
use crate::format::Edition;
use crate::import::read;
use crate::ir::{CompiledSchema, TypeDef, TypeId, WireSize};
use crate::lengths::parts::reached;

/// Images that both layouts accept.
const ACCEPTED: [&str; 7] = [
    "with the packed table",
    "with another table",
    "with ends that became equal",
    "with another Fixed row",
    "with another bounded row",
    "with another open row",
    "though an enum or flags bring a width",
];

/// Images refused for a size, by what the packed layout answers.
const LIMIT: [&str; 7] = [
    "11, packed accepted",
    "11, packed 11",
    "11, packed 14",
    "14, packed accepted",
    "14, packed 11",
    "14, packed 14",
    "at another slot than packed",
];

/// Images refused by 15. Each has a slot, and so is tried with a size table
/// that is short, which would be 10.
const BROUGHT: [&str; 5] = [
    "packed 11",
    "packed 14",
    "packed with findings",
    "several slots bring a size",
    "the first slot brings none",
];

/// The slot of refusal 15: what it is, whether it is declared or reached from
/// a slot that is, and which kind of size it brings.
const SLOTS: [&str; 2] = ["message", "union"];
const STANDING: [&str; 3] = ["declared", "reached", "neither"];
const BRINGS: [&str; 3] = ["Fixed", "bounded", "open"];

/// Images refused on reading though they bring a size.
const READING: [&str; 3] = ["7", "8", "9"];

/// Images of a run for each of which a count has to be one more.
const IMAGES_EACH: u64 = 2_000;

type Over = [[u64; BYTE]; ENDS.len()];

#[derive(Debug, Clone, Default, PartialEq, Eq)]
pub struct AlignedCounts {
    /// Accepted images by a field that they have: whose it is, the end of its
    /// size, and the bits over whole bytes.
    over: [Over; OWNERS.len()],
    accepted: [u64; ACCEPTED.len()],
    limit: [u64; LIMIT.len()],
    /// Images refused by rounding itself.
    passing: [u64; PASSING.len()],
    brought: [u64; BROUGHT.len()],
    slots: [[[u64; BRINGS.len()]; STANDING.len()]; SLOTS.len()],
    reading: [u64; READING.len()],
}

impl AlignedCounts {
    /// Counts an image by its answer here and by that of the packed layout.
    pub fn count(&mut self, image: &[u8], edition: Edition, aligned: &Whole) {
        let Ok(imported) = read(image, edition) else {
            return;
        };
        let schema = &imported.schema;
        match aligned.refusal() {
            Some(refusal) => {
                let brings = bringing(schema).next().is_some();
                self.reading[refusal.number as usize - 7] += u64::from(brings);
            }
            None => self.count_answers(schema, aligned, &Whole::of(image, edition)),
        }
    }

    /// Nothing if one takes too long.
    fn count_answers(&mut self, schema: &CompiledSchema, aligned: &Whole, packed: &Whole) {
        let answers = [aligned, packed].map(|whole| whole.sizes_answer(u64::MAX));
        let [Ok(here), Ok(there)] = answers else {
            return;
        };
        match (here, there) {
            (Answer::Accepted { sizes, .. }, Answer::Accepted { sizes: packed, .. }) => {
                self.count_rounding(&aligned.notes.rounding);
                add_there(&mut self.accepted, &accepted(schema, &sizes, &packed));
            }
            (Answer::Accepted { .. }, Answer::Refused { .. }) => {
                unreachable!("what is accepted aligned is accepted packed")
            }
            (Answer::Refused { number: 15, place }, there) => {
                let with_findings = packed.finding_places().is_some_and(|places| places > 0);
                self.count_brought(schema, place, &there, with_findings);
            }
            (Answer::Refused { number, place }, there) => {
                add_there(&mut self.limit, &passed(number, place, &there));
                add_there(&mut self.passing, &aligned.notes.rounding.passing);
            }
        }
    }

    fn count_rounding(&mut self, rounding: &Rounding) {
        for (ends, there) in self.over.iter_mut().zip(&rounding.over) {
            for (over, there) in ends.iter_mut().zip(there) {
                add_there(over, there);
            }
        }
    }

    fn count_brought(
        &mut self,
        schema: &CompiledSchema,
        place: u64,
        packed: &Answer,
        with_findings: bool,
    ) {
        let there = [
            is_refused(packed, 11),
            is_refused(packed, 14),
            with_findings,
            bringing(schema).count() > 1,
            place > 0,
        ];
        add_there(&mut self.brought, &there);
        let slot = place as usize;
        let is_union = matches!(
            schema.registry.get(TypeId(place as u32)),
            Some(TypeDef::Union(_))
        );
        let size = match brought(schema, slot) {
            Some(WireSize::Fixed(_)) => 0,
            Some(WireSize::Variable { max_bits, .. }) => 1 + usize::from(max_bits.is_none()),
            None => unreachable!("refusal 15 is at a slot that brings a size"),
        };
        self.slots[usize::from(is_union)][standing(schema, slot)][size] += 1;
    }

    pub fn add(&mut self, other: &AlignedCounts) {
        for (over, more) in self.over.iter_mut().zip(&other.over) {
            add_rows(over, more);
        }
        add_row(&mut self.accepted, &other.accepted);
        add_row(&mut self.limit, &other.limit);
        add_row(&mut self.passing, &other.passing);
        add_row(&mut self.brought, &other.brought);
        for (slots, more) in self.slots.iter_mut().zip(&other.slots) {
            add_rows(slots, more);
        }
        add_row(&mut self.reading, &other.reading);
    }

    /// All counts, what each is of, and the least that each has to be in a run of
    /// so many images.
    pub fn held(&self, images: u64) -> Vec<(String, u64, u64)> {
        let mut all = Vec::new();
        for (owner, ends) in OWNERS.iter().zip(&self.over) {
            for (end, row) in ENDS.iter().zip(ends) {
                for (bits, &count) in row.iter().enumerate() {
                    all.push((format!("{owner} fields, {end}, {bits} bits over"), count));
                }
            }
        }
        all.extend(self.answers());
        let floor = images / IMAGES_EACH;
        let held = all.into_iter().map(|(what, count)| (what, count, floor));
        held.collect()
    }

    /// The counts of answers, and what each is of.
    fn answers(&self) -> Vec<(String, u64)> {
        let mut all = Vec::new();
        named(&mut all, "accepted", &ACCEPTED, &self.accepted);
        named(&mut all, "refused", &LIMIT, &self.limit);
        named(&mut all, "refused by rounding", &PASSING, &self.passing);
        named(&mut all, "refused 15,", &BROUGHT, &self.brought);
        for (slot, rows) in SLOTS.iter().zip(&self.slots) {
            for (standing, row) in STANDING.iter().zip(rows) {
                let what = format!("refused 15 at a {slot}, {standing},");
                named(&mut all, &what, &BRINGS, row);
            }
        }
        let what = "bring a size, but refused";
        named(&mut all, what, &READING, &self.reading);
        all
    }
}

/// What became of the rows, in the order of `ACCEPTED`.
fn accepted(schema: &CompiledSchema, aligned: &[u64], packed: &[u64]) -> [bool; ACCEPTED.len()] {
    let rows = || aligned.chunks(3).zip(packed.chunks(3));
    let other = |kind: u64| rows().any(|(row, packed)| row[0] == kind && row != packed);
    let became_equal =
        |(row, packed): (&[u64], &[u64])| row[0] == 2 && row[1] == row[2] && packed[1] != packed[2];
    let brings_width = |(_, definition): (TypeId, &TypeDef)| match definition {
        TypeDef::Enum(en) => en.wire_bits > 0,
        TypeDef::Flags(flags) => flags.wire_bytes > 0,
        _ => false,
    };
    [
        aligned == packed,
        aligned != packed,
        rows().any(became_equal),
        other(1),
        other(2),
        other(3),
        schema.registry.iter().any(brings_width),
    ]
}

/// How a refusal by 11 or 14 goes with the packed answer, in the order of
/// `LIMIT`.
fn passed(number: u64, place: u64, packed: &Answer) -> [bool; LIMIT.len()] {
    let mut there = [false; LIMIT.len()];
    let first = if number == 11 { 0 } else { 3 };
    match packed {
        Answer::Accepted { .. } => there[first] = true,
        Answer::Refused {
            number,
            place: slot,
        } => {
            there[first + if *number == 11 { 1 } else { 2 }] = true;
            there[LIMIT.len() - 1] = *slot != place;
        }
    }
    there
}

fn is_refused(answer: &Answer, due: u64) -> bool {
    matches!(answer, Answer::Refused { number, .. } if *number == due)
}

/// In the order of `STANDING`.
fn standing(schema: &CompiledSchema, slot: usize) -> usize {
    let declared = || schema.declarations.iter().map(|id| id.index() as usize);
    let sized = |&slot: &usize| {
        let definition = schema.registry.get(TypeId(slot as u32));
        matches!(definition, Some(TypeDef::Message(_) | TypeDef::Union(_)))
    };
    if declared().any(|one| one == slot) {
        return 0;
    }
    let mut reaching = declared().filter(sized);
    1 + usize::from(!reaching.any(|one| reached(schema, one)[slot]))
}

impl fmt::Display for AlignedCounts {
    fn fmt(&self, out: &mut fmt::Formatter<'_>) -> fmt::Result {
        write!(out, "{:15}", "bits over in")?;
        for owner in OWNERS {
            write!(out, "{owner:>36}")?;
        }
        write!(out, "\n{:15}", "")?;
        for end in [ENDS; OWNERS.len()].concat() {
            write!(out, "{end:>9}")?;
        }
        writeln!(out)?;
        for bits in 0..BYTE {
            write!(out, "{bits:<15}")?;
            for over in self.over.iter().flatten() {
                write!(out, "{:>9}", over[bits])?;
            }
            writeln!(out)?;
        }
        for (what, count) in self.answers() {
            writeln!(out, "{what}: {count}")?;
        }
        Ok(())
    }
}
