//! Families of images for comparison, each made from a seed. The families of
//! both editions draw the same schemas; edition two adds limits and retired ones
//! to them. For the head board most schemas bring no sizes.

mod added_bounds;
mod additions;
mod both;
pub mod bounds;
pub mod brought;
mod damage;
pub mod deep;
pub mod edges;
pub mod findings;
mod first;
pub mod full;
mod held;
mod limited;
mod limits;
pub mod loops;
mod matches;
mod near;
mod nesting;
mod over;
mod retired;
pub mod rounding;
pub mod schemas;
mod traits;
pub mod trees;
mod turns;

use crate::format::{Edition, Entry, Layout};
use crate::model::Schema;
use crate::random::Random;
use additions::written;
use schemas::{schema, Style};

/// What takes the images of a family.
pub type Emit<'a> = &'a mut dyn FnMut(&[u8]);

/// A family of images; one call may give several.
pub struct Family {
    pub name: &'static str,
    /// How often it is called, as against the others.
    weight: u64,
    make: Make,
    /// What it is drawn from for.
    of: Of,
}

enum Make {
    /// A schema, which is then written for an entry.
    Schema(fn(&mut Random) -> Schema),
    /// Images for an entry.
    Images(fn(&mut Random, Entry, Emit<'_>)),
}

#[derive(Clone, Copy, PartialEq, Eq)]
enum Of {
    Every,
    Edition(Edition),
    Layout(Layout),
}

impl Family {
    fn call(&self, random: &mut Random, entry: Entry, emit: Emit<'_>) {
        match self.make {
            Make::Schema(make) => {
                let schema = make(random);
                emit(&written(random, schema, entry).bytes);
            }
            Make::Images(make) => make(random, entry, emit),
        }
    }

    fn is_of(&self, entry: Entry) -> bool {
        match self.of {
            Of::Every => true,
            Of::Edition(edition) => edition == entry.edition,
            Of::Layout(layout) => layout == entry.layout,
        }
    }

    const fn only(self, of: Of) -> Self {
        Self { of, ..self }
    }
}

const fn family(name: &'static str, weight: u64, make: fn(&mut Random) -> Schema) -> Family {
    Family {
        name,
        weight,
        make: Make::Schema(make),
        of: Of::Every,
    }
}

const fn images(name: &'static str, weight: u64, make: fn(&mut Random, Entry, Emit<'_>)) -> Family {
    Family {
        name,
        weight,
        make: Make::Images(make),
        of: Of::Every,
    }
}

const TWO: Of = Of::Edition(Edition::Two);
const HEAD_BOARD: Of = Of::Layout(Layout::Aligned);

/// The family of edition two that gives images of edition one.
pub const FIRST_EDITION: &str = "first-edition";

/// All families. Those that give many or long images are called less often.
pub static FAMILIES: &[Family] = &[
    family("valid", 2_000, |random| {
        let style = Style {
            valid: true,
            stored: false,
        };
        schema(random, style)
    }),
    family("stored", 1_000, |random| {
        let style = Style {
            valid: true,
            stored: true,
        };
        schema(random, style)
    }),
    family("loose", 2_000, |random| {
        let style = Style {
            valid: false,
            stored: true,
        };
        schema(random, style)
    }),
    family("traits", 2_000, traits::conformance),
    family("limits", 1_500, limits::near_limit),
    family("newtype-loops", 1_000, loops::newtypes),
    family("alias-loops", 1_000, loops::aliases),
    family("message-loops", 1_000, loops::messages),
    family("doubling", 200, loops::doubling),
    family("chain", 20, loops::chain),
    images("bounds", 500, |random, entry, emit| {
        let all = bounds::boundaries(entry.edition);
        emit(&all[random.below(all.len() as u64) as usize].image);
    }),
    images("truncated", 20, damage::truncated),
    images("single-bytes", 20, damage::single_bytes),
    images("spliced", 1_000, damage::spliced),
    images("crossed", 500, damage::crossed),
    images("malformed", 100, damage::malformed),
    images("out-of-range", 150, damage::out_of_range),
    images("trailing", 300, damage::trailing),
    images("random-bytes", 1_500, damage::random_bytes),
    images("full", 4, full::full),
    family("edges", 1_500, edges::edges),
    family("turns", 500, turns::taken_again),
    family("deep", 4, deep::deep),
    family("endless", 1_000, findings::endless),
    family("trait-fields", 2_000, findings::trait_fields),
    family("many-findings", 20, findings::many),
    family("matches", 2_000, matches::matches),
    images("added-numbers", 320, damage::added).only(TWO),
    images("retired", 180, retired::retired).only(TWO),
    images("both-editions", 600, |random, _, emit| {
        emit(&both::both(random).bytes(Edition::One));
    })
    .only(TWO),
    images(FIRST_EDITION, 2_000, |random, entry, emit| {
        let first = Entry {
            edition: Edition::One,
            ..entry
        };
        let family = drawn(random, families(first));
        FAMILIES[family].call(random, first, emit);
    })
    .only(TWO),
    family("bits-over", 3_000, over::bits_over).only(HEAD_BOARD),
    family("rounding", 2_500, rounding::rounded).only(HEAD_BOARD),
    images("brought", 2_000, brought::brought).only(HEAD_BOARD),
    images("held-widths", 2_500, held::held_widths).only(TWO),
    images("limited-arrays", 4_000, limited::limited_arrays).only(TWO),
];

/// The first families, which the recorded answers of reading are drawn from:
/// they stay as they are, or the recorded images change.
const READING: usize = 20;

/// The families that are drawn from for an entry, with their numbers. Those of
/// the packed layout of edition one stay as they are too.
pub fn families(entry: Entry) -> impl Iterator<Item = (usize, &'static Family)> + Clone {
    let all = FAMILIES.iter().enumerate();
    all.filter(move |(_, family)| family.is_of(entry))
}

/// Which families images are drawn from.
#[derive(Debug, Clone, Copy, PartialEq, Eq)]
pub enum Families {
    All,
    Reading,
    One(usize),
    /// All but one, which shows what that one is there for.
    Without(usize),
}

/// The family of this name, if the entry has it.
pub fn family_named(name: &str, entry: Entry) -> Option<usize> {
    let mut families = families(entry);
    let (number, _) = families.find(|(_, family)| family.name == name)?;
    Some(number)
}

/// The images of one batch, which is told by its seed and number, the families
/// and the entry alone. Its family is drawn by weight.
pub fn batch(
    seed: u64,
    number: u64,
    which: Families,
    entry: Entry,
    mut emit: impl FnMut(usize, &[u8]),
) {
    let mut random = Random::new(seed, number);
    let all = families(entry);
    let family = match which {
        Families::One(family) => family,
        Families::Reading => drawn(&mut random, all.take(READING)),
        Families::All => drawn(&mut random, all),
        Families::Without(left_out) => loop {
            let family = drawn(&mut random, all.clone());
            if family != left_out {
                break family;
            }
        },
    };
    FAMILIES[family].call(&mut random, entry, &mut |image| emit(family, image));
}

fn drawn(
    random: &mut Random,
    families: impl Iterator<Item = (usize, &'static Family)> + Clone,
) -> usize {
    let total = families.clone().map(|(_, family)| family.weight).sum();
    let mut left = random.below(total);
    for (number, family) in families {
        if left < family.weight {
            return number;
        }
        left -= family.weight;
    }
    unreachable!("the weights add up to the total")
}
