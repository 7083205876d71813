//! Every boundary of the format, by one less, exact and one more, with the
//! answer that the documents give.

use std::sync::OnceLock;

use super::added_bounds::added_bounds;
use super::nesting::{encoding_levels, levels};
use crate::format::{write_number, Edition, IMAGE_LIMIT};
use crate::model::{live, Ordinals, Schema, Slot};

/// An image, and its refusal if it is not accepted.
#[derive(Debug)]
pub struct Boundary {
    pub what: String,
    pub image: Vec<u8>,
    pub refused: Option<(u64, u64)>,
}

/// All boundaries of an edition, made once.
pub fn boundaries(edition: Edition) -> &'static [Boundary] {
    static ONE: OnceLock<Vec<Boundary>> = OnceLock::new();
    static TWO: OnceLock<Vec<Boundary>> = OnceLock::new();
    match edition {
        Edition::One => ONE.get_or_init(|| all_of(edition)),
        Edition::Two => TWO.get_or_init(|| {
            let mut all = all_of(edition);
            added_bounds(&mut all);
            all
        }),
    }
}

fn all_of(edition: Edition) -> Vec<Boundary> {
    let mut all = Vec::new();
    whole_tables(&mut all, edition);
    image_bytes(&mut all, edition);
    number_limits(&mut all, NUMBERS);
    number_forms(&mut all);
    levels(&mut all, edition);
    encoding_levels(&mut all, edition);
    all
}

pub fn add(all: &mut Vec<Boundary>, what: String, image: Vec<u8>, refused: Option<(u64, u64)>) {
    all.push(Boundary {
        what,
        image,
        refused,
    });
}

/// Names, slots and declarations, complete.
fn whole_tables(all: &mut Vec<Boundary>, edition: Edition) {
    let mut add_schema = |what, schema: Schema, refused: Option<u64>| {
        let refused = refused.map(|place| (4, place));
        add(all, what, schema.bytes(edition), refused);
    };
    for count in 4_095..=4_097 {
        let schema = Schema {
            names: vec![0; count],
            ..Schema::default()
        };
        let refused = (count > 4_096).then_some(0);
        add_schema(format!("{count} names"), schema, refused);
    }
    for count in 511..=513 {
        let schema = Schema {
            slots: vec![Slot::Config; count],
            ..Schema::default()
        };
        let refused = (count > 512).then_some(1);
        add_schema(format!("{count} slots"), schema, refused);
    }
    for count in 1_023..=1_025 {
        let schema = Schema {
            declarations: vec![0; count],
            ..Schema::default()
        };
        let refused = (count > 1_024).then_some(2);
        add_schema(format!("{count} declarations"), schema, refused);
    }
    for find in 511..=513 {
        let schema = Schema {
            names: vec![find],
            slots: vec![Slot::Config; 512],
            ..Schema::default()
        };
        let refused = (find > 512).then_some(1);
        add_schema(format!("name finds {find}"), schema, refused);
    }
}

/// 65,536 bytes, by the ordinals of one enum.
fn image_bytes(all: &mut Vec<Boundary>, edition: Edition) {
    for length in [IMAGE_LIMIT - 1, IMAGE_LIMIT, IMAGE_LIMIT + 1] {
        let refused = (length > IMAGE_LIMIT).then_some((1, 0));
        let image = full_enum(length, edition).bytes(edition);
        assert_eq!(image.len(), length);
        add(all, format!("{length} bytes"), image, refused);
    }
    let garbage = vec![0xff; IMAGE_LIMIT + 1];
    add(all, "too many false bytes".into(), garbage, Some((1, 0)));
}

/// One enum that is an image of `length` bytes (above 40,000) in an edition.
pub fn full_enum(length: usize, edition: Edition) -> Schema {
    // Names, slots, the enum's four numbers, a count of three bytes, in edition
    // two that of the retired ones, declarations.
    let around = match edition {
        Edition::One => 10,
        Edition::Two => 11,
    };
    one_enum(live(vec![1; length - around]))
}

pub fn one_enum(ordinals: Ordinals) -> Schema {
    Schema {
        slots: vec![Slot::Enum {
            backing: 0,
            non_exhaustive: 0,
            bits: 0,
            ordinals,
        }],
        ..Schema::default()
    }
}

/// What a number is, the bytes before it, and its limit.
pub type Bound = (&'static str, &'static [u8], u64);

const NUMBERS: &[Bound] = &[
    ("slot kind", &[0, 1], 9),
    ("span offset", &[0, 1, 1], 0xffff_ffff),
    ("span length", &[0, 1, 1, 0], 0xffff_ffff),
    ("stored size kind", &[0, 1, 1, 0, 0], 3),
    ("stored bits", &[0, 1, 1, 0, 0, 1], (1 << 63) - 1),
    ("stored smallest", &[0, 1, 1, 0, 0, 2], (1 << 63) - 1),
    ("stored largest", &[0, 1, 1, 0, 0, 3, 0], (1 << 63) - 1),
    ("fields", &[0, 1, 1, 0, 0, 0], 65_536),
    ("field name", &[1, 0, 1, 1, 0, 0, 0, 1], 0),
    ("encoding", &[1, 0, 1, 1, 0, 0, 0, 1, 0], 3),
    ("inner encoding", &[1, 0, 1, 1, 0, 0, 0, 1, 0, 3], 3),
    ("type kind", &[1, 0, 1, 1, 0, 0, 0, 1, 0, 0], 16),
    ("backing", &[0, 1, 2], 4),
    ("non_exhaustive", &[0, 1, 2, 0], 1),
    ("enum bits", &[0, 1, 2, 0, 0], 255),
    ("ordinals", &[0, 1, 2, 0, 0, 0], 65_536),
    ("ordinal", &[0, 1, 2, 0, 0, 0, 1], 0xffff_ffff),
    ("flags bytes", &[0, 1, 3], 255),
    ("bits", &[0, 1, 3, 0], 65_536),
    ("bit", &[0, 1, 3, 0, 1], 0xffff_ffff),
    ("variants", &[0, 1, 4, 0], 65_536),
    ("variant fields", &[0, 1, 4, 0, 1], 65_536),
    ("primitive", &[0, 1, 5, 0], 13),
    ("signed", &[0, 1, 5, 1], 1),
    ("sub-byte bits", &[0, 1, 5, 1, 0], 255),
    ("semantic", &[0, 1, 5, 2], 5),
    ("id", &[0, 1, 5, 3], 0xffff_ffff),
    ("array size", &[0, 1, 5, 6, 0, 0], u64::MAX),
    ("inline bits", &[0, 1, 5, 16], 65_536),
    ("inline bit name", &[2, 0, 0, 1, 5, 16, 1], 1),
    ("alias parameters", &[0, 1, 7], 65_536),
    ("alias parameter", &[2, 0, 0, 1, 7, 1], 1),
    ("expression kind", &[0, 1, 7, 0], 18),
    ("expression name", &[2, 0, 0, 1, 7, 0, 3], 1),
    ("qualified name", &[2, 0, 0, 1, 7, 0, 17], 1),
    ("generic name", &[2, 0, 0, 1, 7, 0, 18], 1),
    ("generic argument", &[2, 0, 0, 1, 7, 0, 18, 1], 18),
    ("expression inline bits", &[0, 1, 7, 0, 16], 65_536),
    ("trait parameters", &[0, 1, 8], 65_536),
    ("trait fields", &[0, 1, 8, 0], 65_536),
    ("trait field name", &[2, 0, 0, 1, 8, 0, 1], 1),
    ("trait number", &[0, 1, 9, 0, 0], 0xffff_ffff),
    ("trait span mark", &[0, 1, 9, 0, 0, 0], 1),
    ("trait span length", &[0, 1, 9, 0, 0, 0, 1, 0], 0xffff_ffff),
    ("arguments", &[0, 1, 9, 0, 0, 0, 0], 65_536),
    ("declared slot", &[0, 0, 2], 0xffff_ffff),
];

/// Each number at its limit, the image ending right after it.
pub fn number_limits(all: &mut Vec<Boundary>, numbers: &[Bound]) {
    for &(what, before, limit) in numbers {
        let above = limit.checked_add(1);
        let values = [limit.checked_sub(1), Some(limit), above, Some(u64::MAX)];
        for value in values.into_iter().flatten() {
            let mut image = before.to_vec();
            write_number(value, &mut image);
            // In range, the next number is missing.
            let place = if value > limit {
                before.len()
            } else {
                image.len()
            };
            let number = if value > limit { 4 } else { 2 };
            let refused = Some((number, place as u64));
            add(all, format!("{what} {value}"), image, refused);
        }
        let missing = Some((2, before.len() as u64));
        add(all, format!("{what} missing"), before.to_vec(), missing);
    }
}

/// Forms of a number, and their refusal; none if they are in range.
#[rustfmt::skip]
pub const FORMS: &[(&[u8], Option<u64>)] = &[
    (&[0x80], Some(2)),
    (&[0x80; 9], Some(2)),
    (&[0x80; 10], Some(3)),
    (&[0x80; 11], Some(3)),
    (&[0x80, 0], Some(3)),
    (&[0xff, 0], Some(3)),
    (&[0x80, 0x80, 0], Some(3)),
    (&[0x80, 0x80, 0x80, 0x80, 0x80, 0x80, 0x80, 0x80, 0x80, 0], Some(3)),
    (&[0x80, 0x80, 0x80, 0x80, 0x80, 0x80, 0x80, 0x80, 0x80, 1], None),
    (&[0xff, 0xff, 0xff, 0xff, 0xff, 0xff, 0xff, 0xff, 0xff, 1], None),
    (&[0xff, 0xff, 0xff, 0xff, 0xff, 0xff, 0xff, 0xff, 0xff, 2], Some(3)),
    (&[0xff, 0xff, 0xff, 0xff, 0xff, 0xff, 0xff, 0xff, 0xff, 0x81], Some(3)),
];

/// Forms of one number: as the name count, and as an array's size.
fn number_forms(all: &mut Vec<Boundary>) {
    for &(form, number) in FORMS {
        let refused = Some((number.unwrap_or(4), 0));
        add(
            all,
            format!("name count {form:02x?}"),
            form.to_vec(),
            refused,
        );
        let before = [0, 1, 5, 6, 0, 0];
        let mut image = [&before, form].concat();
        let refused = number.map(|number| (number, before.len() as u64));
        if refused.is_none() {
            // Terminal type and no declarations.
            image.extend([0, 0, 0]);
        }
        add(all, format!("array size {form:02x?}"), image, refused);
    }
}
