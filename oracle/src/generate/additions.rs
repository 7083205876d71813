//! What becomes of the schemas of all families before they are written: edition
//! two adds limits on fields, retired ordinals and bits, and for the head board
//! most sizes are left out.

use super::brought::bring_nothing;
use super::schemas::ordinal;
use crate::draft::Draft;
use crate::format::{Edition, Entry, Layout, U32_LIMIT};
use crate::model::{Field, Ordinals, Schema, Slot};
use crate::random::Random;

/// The image of a schema. The head board refuses all that bring a size, so for
/// it few do.
pub fn written(random: &mut Random, mut schema: Schema, entry: Entry) -> Draft {
    if entry.layout == Layout::Aligned && !random.once_in(12) {
        bring_nothing(&mut schema);
    }
    as_it_is(random, schema, entry.edition)
}

/// The image of a schema with what it brings; in edition two with limits and
/// retired ones drawn for it.
pub fn as_it_is(random: &mut Random, mut schema: Schema, edition: Edition) -> Draft {
    if edition == Edition::Two {
        add_to(random, &mut schema);
    }
    Draft::new(&schema, edition)
}

/// Adds nothing at times, and now and then a number beyond its range.
fn add_to(random: &mut Random, schema: &mut Schema) {
    if random.once_in(8) {
        return;
    }
    let beyond = random.once_in(40);
    for slot in &mut schema.slots {
        match slot {
            Slot::Message { fields, .. } => limit_all(random, fields),
            Slot::Union { variants, .. } => {
                let fields = variants.iter_mut();
                fields.for_each(|fields| limit_all(random, fields));
            }
            Slot::Enum { ordinals, .. } | Slot::Flags { bits: ordinals, .. } => {
                retire(random, ordinals, beyond);
            }
            _ => {}
        }
    }
    if beyond {
        limit_beyond(random, schema);
    }
}

fn limit_all(random: &mut Random, fields: &mut [Field]) {
    for field in fields {
        field.limit = limit(random);
    }
}

/// None, where a byte is gained, at the end of the range, or any.
pub fn limit(random: &mut Random) -> u64 {
    match random.below(12) {
        0..=2 => 0,
        3 => 1,
        4 => 127,
        5 => 128,
        6 => U32_LIMIT,
        7 => random.pick(&[2, 255, 16_383, 16_384, U32_LIMIT - 1]),
        _ => random.uneven().min(U32_LIMIT),
    }
}

/// None, or some of any size, live ones and repeated ones among them.
fn retire(random: &mut Random, ordinals: &mut Ordinals, beyond: bool) {
    let count = match random.below(12) {
        0..=3 => 0,
        4 => 100 + random.below(100),
        _ => 1 + random.below(4),
    };
    for _ in 0..count {
        let Ordinals { live, retired } = &*ordinals;
        let one = match random.below(6) {
            0 if !live.is_empty() => random.pick(live),
            1 if !retired.is_empty() => random.pick(retired),
            2 => U32_LIMIT,
            3 if beyond => U32_LIMIT + 1,
            _ => ordinal(random),
        };
        ordinals.retired.push(one);
    }
}

fn limit_beyond(random: &mut Random, schema: &mut Schema) {
    let fields = schema.slots.iter_mut().flat_map(|slot| match slot {
        Slot::Message { fields, .. } => fields.iter_mut().collect(),
        Slot::Union { variants, .. } => variants.iter_mut().flatten().collect(),
        _ => Vec::new(),
    });
    let mut fields: Vec<&mut Field> = fields.collect();
    if !fields.is_empty() {
        let one = random.below(fields.len() as u64) as usize;
        fields[one].limit = U32_LIMIT + 1;
    }
}
