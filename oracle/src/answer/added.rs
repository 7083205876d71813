//! What edition two adds to an image, counted: limits by the fields that have
//! them, retired ordinals and bits, and which of these numbers were refused. A
//! wrong reading of them is seen only if they are met, so each count has a
//! floor.

use std::collections::HashSet;
use std::fmt;

use super::counts::{add_row, add_rows, add_there, named};
use super::kinds::ROWS;
use super::parts::type_kind;
use super::Whole;
use super::PROGRAM_PLACES;
use crate::format::{read_number, COUNT_LIMIT, U32_LIMIT};
use crate::import::{Added, Imported, Refusal};
use crate::ir::{Encoding, FieldDef, TombstoneDef, TypeDef};

/// Kinds of types.
const KINDS: usize = 17;

/// Where a field with a limit stands, and how it is encoded.
const FIELDS: [&str; 6] = ["message", "variant", "Default", "Varint", "ZigZag", "Delta"];
const MESSAGE: usize = 0;
const VARIANT: usize = 1;

/// Limits at which something changes: the bytes they take, or their range.
const LIMITS: [u64; 5] = [0, 1, 127, 128, U32_LIMIT];

/// Lists of retired ones: what they are of, and what they hold.
const OWNERS: [&str; 2] = ["enum", "flags"];
const LISTS: [&str; 6] = ["empty", "some", "repeated", "live too", "2^32 - 1", "long"];

/// Retired ones from which on a list is long: its count has three bytes.
const LONG: usize = 1 << 14;

/// Numbers that are refused by 2, 3 or 4, and the greatest they may be.
const NUMBERS: [(&str, u64); 3] = [
    ("limit", U32_LIMIT),
    ("retired count", COUNT_LIMIT),
    ("retired one", U32_LIMIT),
];

/// Images: with a limit and a trait field, which has none; that end inside a
/// list of as many retired ones as there may be; that both editions accept, and
/// that both accept and answer otherwise.
const IMAGES: [&str; 4] = [
    "with a limit and a trait field",
    "cut in a list of 65536 retired ones",
    "accepted by both editions",
    "answered otherwise by both editions",
];
const BESIDE_TRAITS: usize = 0;
const LONGEST: usize = 1;
const BOTH: usize = 2;
const OTHERWISE: usize = 3;

/// Images of a run for each of which a count has to be one more; other families
/// than the one for it give some that both editions answer otherwise.
const IMAGES_EACH: u64 = 1_000;
const IMAGES_EACH_OTHERWISE: u64 = 160;

#[derive(Debug, Clone, Default, PartialEq, Eq)]
pub struct AddedCounts {
    /// Fields with a limit, by the kind of their type.
    limited: [[u64; FIELDS.len()]; KINDS],
    /// Fields by their limit.
    limits: [u64; LIMITS.len()],
    retired: [[u64; LISTS.len()]; OWNERS.len()],
    /// Images refused at such a number, by 2, 3 and 4.
    refused: [[u64; 3]; NUMBERS.len()],
    /// Those of 4 whose number is one above its range.
    above: [u64; NUMBERS.len()],
    images: [u64; IMAGES.len()],
}

impl AddedCounts {
    /// Counts an image of edition two by how it was read.
    pub fn count(&mut self, image: &[u8], read: &Result<Imported, Refusal>) {
        match read {
            Ok(imported) => self.count_schema(imported),
            Err(refusal) => self.count_refusal(image, *refusal),
        }
    }

    fn count_schema(&mut self, imported: &Imported) {
        let (mut limited, mut traits) = (false, false);
        for (_, definition) in imported.schema.registry.iter() {
            match definition {
                TypeDef::Message(message) => {
                    limited |= self.count_fields(&message.fields, MESSAGE);
                }
                TypeDef::Union(un) => {
                    for variant in &un.variants {
                        limited |= self.count_fields(&variant.fields, VARIANT);
                    }
                }
                TypeDef::Enum(en) => {
                    let live = en.variants.iter().map(|variant| variant.ordinal);
                    count_retired(&mut self.retired[0], &live.collect(), &en.tombstones);
                }
                TypeDef::Flags(flags) => {
                    let live = flags.bits.iter().map(|bit| bit.bit);
                    count_retired(&mut self.retired[1], &live.collect(), &flags.tombstones);
                }
                TypeDef::Trait(body) => traits |= !body.fields.is_empty(),
                _ => {}
            }
        }
        self.images[BESIDE_TRAITS] += u64::from(limited && traits);
    }

    /// Whether one of the fields has a limit.
    fn count_fields(&mut self, fields: &[FieldDef], place: usize) -> bool {
        for field in fields {
            let limit = field.encoding.limit.unwrap_or(0);
            if let Some(value) = LIMITS.iter().position(|&value| value == limit) {
                self.limits[value] += 1;
            }
            if limit > 0 {
                let row = &mut self.limited[type_kind(&field.resolved_type)];
                row[place] += 1;
                row[encoding_column(&field.encoding.encoding)] += 1;
            }
        }
        fields.iter().any(|field| field.encoding.limit.is_some())
    }

    fn count_refusal(&mut self, image: &[u8], refusal: Refusal) {
        let row = match refusal.added {
            None => return,
            Some(Added::Limit) => 0,
            Some(Added::RetiredCount) => 1,
            Some(Added::Retired { count }) => {
                let longest = count as u64 == COUNT_LIMIT && refusal.number == 2;
                self.images[LONGEST] += u64::from(longest);
                2
            }
        };
        self.refused[row][refusal.number as usize - 2] += 1;
        let above = read_number(image, refusal.place as usize)
            .is_ok_and(|(value, _)| value == NUMBERS[row].1 + 1);
        self.above[row] += u64::from(above);
    }

    /// Counts what one edition and the other made of the same bytes.
    pub fn count_both(&mut self, one: &Whole, two: &Whole) {
        if one.refusal().is_none() && two.refusal().is_none() {
            self.images[BOTH] += 1;
            let answers = [one, two].map(|whole| whole.answer(PROGRAM_PLACES));
            self.images[OTHERWISE] += u64::from(answers[0] != answers[1]);
        }
    }

    pub fn add(&mut self, other: &AddedCounts) {
        add_rows(&mut self.limited, &other.limited);
        add_row(&mut self.limits, &other.limits);
        add_rows(&mut self.retired, &other.retired);
        add_rows(&mut self.refused, &other.refused);
        add_row(&mut self.above, &other.above);
        add_row(&mut self.images, &other.images);
    }

    /// All counts, what each is of, and the least that each has to be in a run of
    /// so many images.
    pub fn held(&self, images: u64) -> Vec<(String, u64, u64)> {
        let held = |(what, count): (String, u64)| {
            let floor = match what.ends_with(IMAGES[OTHERWISE]) {
                true => images / IMAGES_EACH_OTHERWISE,
                false => images / IMAGES_EACH,
            };
            (what, count, floor)
        };
        self.each().into_iter().map(held).collect()
    }

    /// All counts, and what each is of.
    fn each(&self) -> Vec<(String, u64)> {
        let mut all = Vec::new();
        for (kind, row) in ROWS.iter().zip(&self.limited) {
            named(&mut all, &format!("limits, {kind},"), &FIELDS, row);
        }
        for (limit, count) in LIMITS.iter().zip(self.limits) {
            all.push((format!("limits of {limit}"), count));
        }
        for (owner, row) in OWNERS.iter().zip(&self.retired) {
            named(&mut all, &format!("retired lists, {owner},"), &LISTS, row);
        }
        for ((what, _), row) in NUMBERS.iter().zip(&self.refused) {
            named(
                &mut all,
                &format!("{what} refused by"),
                &["2", "3", "4"],
                row,
            );
        }
        for ((what, most), count) in NUMBERS.iter().zip(self.above) {
            all.push((format!("{what} of {}", most + 1), count));
        }
        named(&mut all, "images", &IMAGES, &self.images);
        all
    }
}

fn encoding_column(encoding: &Encoding) -> usize {
    match encoding {
        Encoding::Default => 2,
        Encoding::Varint => 3,
        Encoding::ZigZag => 4,
        Encoding::Delta(_) => 5,
    }
}

fn count_retired(row: &mut [u64; LISTS.len()], live: &HashSet<u32>, retired: &[TombstoneDef]) {
    let ordinals = || retired.iter().map(|one| one.ordinal);
    let different: HashSet<u32> = ordinals().collect();
    let there = [
        retired.is_empty(),
        !retired.is_empty(),
        different.len() < retired.len(),
        different.iter().any(|one| live.contains(one)),
        different.contains(&u32::MAX),
        retired.len() >= LONG,
    ];
    add_there(row, &there);
}

impl fmt::Display for AddedCounts {
    fn fmt(&self, out: &mut fmt::Formatter<'_>) -> fmt::Result {
        write!(out, "{:15}", "limits on")?;
        for told in FIELDS {
            write!(out, "{told:>9}")?;
        }
        writeln!(out)?;
        for (kind, row) in ROWS.iter().zip(&self.limited) {
            write!(out, "{kind:15}")?;
            for count in row {
                write!(out, "{count:>9}")?;
            }
            writeln!(out)?;
        }
        let in_table = KINDS * FIELDS.len();
        for (what, count) in self.each().into_iter().skip(in_table) {
            writeln!(out, "{what}: {count}")?;
        }
        Ok(())
    }
}
