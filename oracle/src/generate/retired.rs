//! Long lists of retired ordinals and bits, up to the greatest count and past
//! it, whole and cut.

use super::schemas::{ordinal, ordinals};
use super::Emit;
use crate::draft::Draft;
use crate::format::{Entry, IMAGE_LIMIT};
use crate::model::{declared, Ordinals, Slot};
use crate::random::Random;

/// Counts where a byte is gained, where the image is full, and where the
/// range ends.
const COUNTS: [u64; 14] = [
    0, 127, 128, 16_383, 16_384, 16_384, 16_384, 17_000, 17_000, 65_500, 65_526, 65_536, 65_536,
    65_537,
];

/// The same list in an enum and in flags: whole, as much of it as an image may
/// have, and a few of it.
pub fn retired(random: &mut Random, entry: Entry, emit: Emit<'_>) {
    let list = list(random);
    let enumeration = Slot::Enum {
        backing: random.below(5),
        non_exhaustive: random.below(2),
        bits: random.below(256),
        ordinals: list.clone(),
    };
    let flags = Slot::Flags {
        bytes: random.below(256),
        bits: list,
    };
    for slot in [enumeration, flags] {
        let draft = Draft::new(&declared(vec![], vec![slot]), entry.edition);
        let image = &draft.bytes;
        emit(image);
        if image.len() > IMAGE_LIMIT {
            emit(&image[..IMAGE_LIMIT]);
        }
        let mut listed = draft.numbers.iter().filter(|number| number.added);
        // The first of them is the count.
        let few = 1 + random.below(5) as usize;
        if let Some(number) = listed.nth(few) {
            emit(&image[..number.at]);
        }
    }
}

/// Most of the retired ones are as short as can be.
fn list(random: &mut Random) -> Ordinals {
    let short = random.below(128);
    let count = random.pick(&COUNTS);
    let live = ordinals(random);
    let one = |_| match random.once_in(5_000) {
        true => ordinal(random),
        false => short,
    };
    Ordinals {
        live,
        retired: (0..count).map(one).collect(),
    }
}
