//! The boundaries of what edition two adds: limits, retired ordinals and bits.

use super::bounds::{add, number_limits, one_enum, Bound, Boundary, FORMS};
use crate::format::{Edition, IMAGE_LIMIT};
use crate::model::Ordinals;

pub fn added_bounds(all: &mut Vec<Boundary>) {
    number_limits(all, NUMBERS);
    number_forms(all);
    retired_counts(all);
}

/// The numbers that edition two adds, and some that come after one.
const NUMBERS: &[Bound] = &[
    ("limit", &[1, 0, 1, 1, 0, 0, 0, 1, 0, 0, 0, 1], 0xffff_ffff),
    (
        "name after a limit",
        &[1, 0, 1, 1, 0, 0, 0, 2, 0, 0, 0, 1, 0x80, 1],
        0,
    ),
    (
        "limit of an array",
        &[1, 0, 1, 1, 0, 0, 0, 1, 0, 3, 0, 5, 0, 1],
        0xffff_ffff,
    ),
    (
        "limit in a variant",
        &[1, 0, 1, 4, 0, 1, 1, 0, 1, 0, 1],
        0xffff_ffff,
    ),
    (
        "fields of the next variant",
        &[1, 0, 1, 4, 0, 2, 1, 0, 1, 0, 1, 5],
        65_536,
    ),
    ("retired ordinals", &[0, 1, 2, 0, 0, 0, 0], 65_536),
    (
        "retired ordinals after live ones",
        &[0, 1, 2, 0, 0, 0, 2, 1, 3],
        65_536,
    ),
    ("retired ordinal", &[0, 1, 2, 0, 0, 0, 0, 1], 0xffff_ffff),
    (
        "second retired ordinal",
        &[0, 1, 2, 0, 0, 0, 0, 2, 7],
        0xffff_ffff,
    ),
    ("retired bits", &[0, 1, 3, 0, 0], 65_536),
    ("retired bits after live ones", &[0, 1, 3, 0, 1, 4], 65_536),
    ("retired bit", &[0, 1, 3, 0, 0, 1], 0xffff_ffff),
    ("slot kind after retired bits", &[0, 2, 3, 0, 0, 1, 4], 9),
    // Trait fields have no limit: the next name stands right after the type.
    (
        "name after a trait field",
        &[2, 0, 0, 1, 8, 0, 2, 0, 0, 1],
        1,
    ),
];

/// Forms of one number: as a limit, and as a retired ordinal.
fn number_forms(all: &mut Vec<Boundary>) {
    let places: [(&str, &[u8]); 2] = [
        ("limit", &[1, 0, 1, 1, 0, 0, 0, 1, 0, 0, 0, 1]),
        ("retired ordinal", &[0, 1, 2, 0, 0, 0, 0, 1]),
    ];
    for (what, before) in places {
        for &(form, number) in FORMS {
            let image = [before, form].concat();
            // The forms in 64 bits are beyond 32.
            let refused = Some((number.unwrap_or(4), before.len() as u64));
            add(all, format!("{what} {form:02x?}"), image, refused);
        }
    }
}

/// As many retired ones as there may be and one more. So many have more bytes
/// than an image, so a list of 65,536 is refused by 1, or by 2 where it is cut.
fn retired_counts(all: &mut Vec<Boundary>) {
    for count in [65_525, 65_526, 65_535, 65_536, 65_537] {
        let image = one_enum(Ordinals {
            live: vec![],
            retired: vec![9; count],
        })
        .bytes(Edition::Two);
        // The first of these counts fills the image.
        let refused = (image.len() > IMAGE_LIMIT).then_some((1, 0));
        add(all, format!("{count} retired"), image.clone(), refused);
        if image.len() > IMAGE_LIMIT {
            let refused = match count {
                65_537 => (4, 7),
                _ => (2, IMAGE_LIMIT as u64),
            };
            let what = format!("{count} retired, cut");
            add(all, what, image[..IMAGE_LIMIT].to_vec(), Some(refused));
        }
    }
}
