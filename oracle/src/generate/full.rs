//! Images near 65,536 bytes.

use super::additions::{limit, written};
use super::bounds::full_enum;
use super::schemas::{schema_of, Style};
use super::trees::{field, Pool};
use super::Emit;
use crate::format::{Edition, Entry, IMAGE_LIMIT};
use crate::model::{field as plain_field, message, union, Field, Schema, Slot, Tree, U8};
use crate::random::Random;

/// A full image, then one cut and one changed.
pub fn full(random: &mut Random, entry: Entry, emit: Emit<'_>) {
    let edition = entry.edition;
    let mut image = match random.below(5) {
        0 => match edition {
            Edition::One => one_message(random, edition).bytes(edition),
            Edition::Two => limited_message(random).bytes(edition),
        },
        1 => {
            let schema = schema_of(random, STYLE, 512);
            written(random, schema, entry).bytes
        }
        2 => full_names().bytes(edition),
        3 => full_enum(IMAGE_LIMIT - random.below(3) as usize, edition).bytes(edition),
        _ => {
            let schema = many_variants(random);
            written(random, schema, entry).bytes
        }
    };
    emit(&image);
    let at = random.below(image.len() as u64) as usize;
    emit(&image[..at]);
    image[at] = random.bits() as u8;
    emit(&image);
}

const STYLE: Style = Style {
    valid: true,
    stored: true,
};

/// One message of fields without limits, to the last byte or nearly so.
pub fn one_message(random: &mut Random, edition: Edition) -> Schema {
    message_of(edition, || any_field(random))
}

fn limited_message(random: &mut Random) -> Schema {
    message_of(Edition::Two, || Field {
        limit: limit(random),
        ..any_field(random)
    })
}

fn any_field(random: &mut Random) -> Field {
    field(random, 6, &Pool::types(vec![0, 1, 2], 2))
}

fn message_of(edition: Edition, mut field: impl FnMut() -> Field) -> Schema {
    let mut fields = Vec::new();
    let mut bytes = 20;
    while bytes < IMAGE_LIMIT - 100 {
        let one = field();
        bytes += field_bytes(&one, edition);
        fields.push(one);
    }
    let schema = Schema {
        names: vec![0, 0],
        slots: vec![message(0, fields)],
        declarations: vec![0],
    };
    filled(schema, edition)
}

fn field_bytes(field: &Field, edition: Edition) -> usize {
    let bytes = |fields| {
        let alone = Schema {
            names: vec![],
            slots: vec![message(0, fields)],
            declarations: vec![],
        };
        alone.bytes(edition).len()
    };
    bytes(vec![field.clone()]) - bytes(vec![])
}

/// Adds short fields to the last slot, a message, while they fit.
pub fn filled(mut schema: Schema, edition: Edition) -> Schema {
    let short = plain_field(0, U8);
    let room = IMAGE_LIMIT.saturating_sub(schema.bytes(edition).len());
    let more = room / field_bytes(&short, edition);
    if let Some(Slot::Message { fields, .. }) = schema.slots.last_mut() {
        fields.extend(vec![short; more]);
    }
    schema
}

/// 4,096 names, 512 slots, 1,024 declarations, and names to the last byte.
pub fn full_names() -> Schema {
    let mut slots = vec![Slot::Config; 511];
    let names = |count| Slot::Alias {
        parameters: vec![1; count],
        target: Tree::Named(1),
    };
    slots.push(names(20_000));
    let mut schema = Schema {
        names: vec![512; 4_096],
        slots,
        declarations: (0..1_024).map(|slot| slot % 512).collect(),
    };
    // Neither edition adds anything to it.
    let room = IMAGE_LIMIT - schema.bytes(Edition::One).len();
    schema.slots[511] = names(20_000 + room);
    schema
}

fn many_variants(random: &mut Random) -> Schema {
    let mut variants = vec![vec![]; 60_000];
    for _ in 0..random.below(100) {
        let at = random.below(60_000) as usize;
        variants[at].push(plain_field(0, Tree::Primitive(random.below(14))));
    }
    Schema {
        names: vec![0],
        slots: vec![union(variants)],
        declarations: vec![0],
    }
}
