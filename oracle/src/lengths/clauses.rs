//! Demand 3, clause by clause, of a size table: what the lengths of an image
//! say of its rows, and whether the provisos are met.

use std::fmt;

use super::parts::leading_back;
use super::rules::lengths_of_slots;
use super::set::{Lengths, HORIZON};
use super::turns::{last_turns, LastTurns};
use crate::answer::brought;
use crate::format::Layout;
use crate::ir::{CompiledSchema, TypeDef, WireSize};

#[derive(Debug, Clone, Copy, PartialEq, Eq)]
pub enum Clause {
    /// Every length lies within the row.
    Enclosure,
    /// Smallest is not above largest, where there is one.
    Order,
    /// Smallest is a length.
    Smallest,
    /// Largest, where there is one, is a length.
    Largest,
    /// A message is Fixed exactly when every field is, and then their sum; no
    /// proviso.
    Fixed,
}

impl Clause {
    pub const ALL: [Clause; 5] = [
        Clause::Enclosure,
        Clause::Order,
        Clause::Smallest,
        Clause::Largest,
        Clause::Fixed,
    ];
}

/// What a clause asks of the image; each is needed.
#[derive(Debug, Clone, Copy, PartialEq, Eq)]
pub enum Proviso {
    /// Each size that the image brings encloses its type's lengths.
    Enclosing,
    /// Each size that the image brings is ordered.
    Ordered,
    /// The image brings no size.
    NoneBrought,
    /// Nothing that the type is made of leads back to itself.
    NotBack,
}

impl Proviso {
    pub const ALL: [Proviso; 4] = [
        Proviso::Enclosing,
        Proviso::Ordered,
        Proviso::NoneBrought,
        Proviso::NotBack,
    ];
}

/// Unknown where it hangs on lengths past the horizon.
#[derive(Debug, Clone, Copy, PartialEq, Eq)]
pub enum Truth {
    Yes,
    No,
    Unknown,
}

impl From<bool> for Truth {
    fn from(fact: bool) -> Self {
        match fact {
            true => Truth::Yes,
            false => Truth::No,
        }
    }
}

impl Truth {
    fn and(self, other: Self) -> Self {
        match (self, other) {
            (Truth::No, _) | (_, Truth::No) => Truth::No,
            (Truth::Yes, Truth::Yes) => Truth::Yes,
            _ => Truth::Unknown,
        }
    }
}

/// A size as it stands in a table.
#[derive(Debug, Clone, Copy, PartialEq, Eq)]
pub struct Row {
    pub fixed: bool,
    pub smallest: u64,
    pub largest: Option<u64>,
}

impl Row {
    /// None if the three numbers are not those of a message or union.
    pub fn of(numbers: &[u64]) -> Option<Self> {
        let (fixed, smallest, largest) = match *numbers {
            [1, bits, same] if bits == same => (true, bits, Some(bits)),
            [2, smallest, largest] => (false, smallest, Some(largest)),
            [3, smallest, 0] => (false, smallest, None),
            _ => return None,
        };
        Some(Self {
            fixed,
            smallest,
            largest,
        })
    }

    fn ordered(&self) -> bool {
        self.largest.is_none_or(|largest| self.smallest <= largest)
    }

    fn encloses(&self, lengths: &Lengths) -> Truth {
        let below = lengths.ends().is_none_or(|(least, most)| {
            self.smallest <= least && self.largest.is_none_or(|largest| most <= largest)
        });
        let past = match self.largest {
            _ if !lengths.reaches_beyond() => Truth::Yes,
            Some(largest) if largest < HORIZON => Truth::No,
            None if self.smallest <= HORIZON => Truth::Yes,
            _ => Truth::Unknown,
        };
        Truth::from(below).and(past)
    }
}

impl From<&WireSize> for Row {
    fn from(size: &WireSize) -> Self {
        match *size {
            WireSize::Fixed(bits) => Self {
                fixed: true,
                smallest: bits,
                largest: Some(bits),
            },
            WireSize::Variable { min_bits, max_bits } => Self {
                fixed: false,
                smallest: min_bits,
                largest: max_bits,
            },
        }
    }
}

/// How often a clause and its provisos were met.
#[derive(Debug, Clone, Default, PartialEq, Eq)]
pub struct Tally {
    /// The provisos are met and the clause holds.
    pub held: [u64; Clause::ALL.len()],
    /// The clause holds though a proviso is not met.
    pub idle: [u64; Clause::ALL.len()],
    /// One or the other hangs on lengths past the horizon.
    pub unknown: [u64; Clause::ALL.len()],
    /// This proviso alone is not met, and a clause does not hold.
    pub needed: [u64; Proviso::ALL.len()],
}

impl Tally {
    pub fn add(&mut self, other: &Self) {
        let pairs = [
            (&mut self.held[..], &other.held[..]),
            (&mut self.idle, &other.idle),
            (&mut self.unknown, &other.unknown),
            (&mut self.needed, &other.needed),
        ];
        for (counts, more) in pairs {
            counts.iter_mut().zip(more).for_each(|(one, &n)| *one += n);
        }
    }
}

/// A row that breaks a clause, its provisos being met.
#[derive(Debug, Clone, PartialEq, Eq)]
pub struct Violation {
    pub slot: usize,
    /// None if the row is that of no message or union at all.
    pub clause: Option<Clause>,
    pub row: Vec<u64>,
    pub told: String,
}

impl fmt::Display for Violation {
    fn fmt(&self, out: &mut fmt::Formatter<'_>) -> fmt::Result {
        let Self { slot, row, .. } = self;
        write!(out, "slot {slot} has the row {row:?}, ")?;
        match self.clause {
            None => write!(out, "which is no size of a message or union"),
            Some(clause) => write!(out, "against {clause:?}: {}", self.told),
        }
    }
}

/// What the lengths, parts and turns of an image say in a layout; no table is
/// needed.
pub struct Facts {
    pub lengths: Vec<Lengths>,
    /// Per slot, whether what it is made of leads back.
    pub back: Vec<bool>,
    /// Declared messages and unions, each once.
    pub slots: Vec<usize>,
    pub enclosing: Truth,
    pub ordered: bool,
    pub none_brought: bool,
    pub last_turns: LastTurns,
}

impl Facts {
    pub fn of(schema: &CompiledSchema, layout: Layout) -> Self {
        let lengths = lengths_of_slots(schema, layout);
        let mut facts = Self {
            back: leading_back(schema),
            slots: turned(schema),
            enclosing: Truth::Yes,
            ordered: true,
            none_brought: true,
            last_turns: last_turns(schema, layout),
            lengths,
        };
        for slot in 0..schema.registry.len() {
            if let Some(size) = brought(schema, slot) {
                let size = Row::from(size);
                facts.none_brought = false;
                facts.ordered &= size.ordered();
                facts.enclosing = facts.enclosing.and(size.encloses(&facts.lengths[slot]));
            }
        }
        facts
    }

    /// Judges the rows of all declared messages and unions; answers the first
    /// that breaks a clause.
    pub fn judge(&self, table: &[u64], tally: &mut Tally) -> Option<Violation> {
        let mut first = None;
        for &slot in &self.slots {
            let row = table.get(3 * slot..3 * slot + 3).unwrap_or_default();
            let broken = match Row::of(row) {
                Some(size) => self.judge_row(slot, size, tally).map(Some),
                None => Some(None),
            };
            let violation = |clause: Option<Clause>| Violation {
                slot,
                clause,
                row: row.to_vec(),
                told: clause.map_or_else(String::new, |clause| self.told(slot, clause)),
            };
            first = first.or_else(|| broken.map(violation));
        }
        first
    }

    fn judge_row(&self, slot: usize, row: Row, tally: &mut Tally) -> Option<Clause> {
        let mut broken = None;
        let met = self.met(slot);
        for (at, clause) in Clause::ALL.into_iter().enumerate() {
            let Some(holds) = self.holds(slot, row, clause) else {
                continue;
            };
            let (asked, alone) = asked_of(clause, &met);
            match (asked, holds) {
                (Truth::Yes, Truth::Yes) => tally.held[at] += 1,
                (Truth::Yes, Truth::No) => broken = broken.or(Some(clause)),
                (Truth::No, Truth::Yes) => tally.idle[at] += 1,
                (Truth::No, Truth::No) => {
                    if let Some(proviso) = alone {
                        tally.needed[proviso as usize] += 1;
                    }
                }
                _ => tally.unknown[at] += 1,
            }
        }
        broken
    }

    fn met(&self, slot: usize) -> [Truth; Proviso::ALL.len()] {
        Proviso::ALL.map(|proviso| match proviso {
            Proviso::Enclosing => self.enclosing,
            Proviso::Ordered => self.ordered.into(),
            Proviso::NoneBrought => self.none_brought.into(),
            Proviso::NotBack => (!self.back[slot]).into(),
        })
    }

    /// Nothing where the clause says nothing of such a row.
    fn holds(&self, slot: usize, row: Row, clause: Clause) -> Option<Truth> {
        let attained = |bits| match self.lengths[slot].has(bits) {
            Some(fact) => fact.into(),
            None => Truth::Unknown,
        };
        match clause {
            Clause::Enclosure => Some(row.encloses(&self.lengths[slot])),
            Clause::Order => row.largest.map(|_| row.ordered().into()),
            Clause::Smallest => Some(attained(row.smallest)),
            Clause::Largest => row.largest.map(attained),
            Clause::Fixed => self.last_turns.sums[slot].map(|sum| match sum {
                None => (!row.fixed).into(),
                Some(bits) => (row.fixed && u128::from(row.smallest) == bits).into(),
            }),
        }
    }

    fn told(&self, slot: usize, clause: Clause) -> String {
        match clause {
            Clause::Fixed => match self.last_turns.sums[slot].flatten() {
                Some(bits) => format!("every field is Fixed, together {bits}"),
                None => "a field is not Fixed".into(),
            },
            _ => format!("its lengths are {:?}", self.lengths[slot]),
        }
    }
}

/// The provisos of a clause.
fn asked(clause: Clause) -> &'static [Proviso] {
    match clause {
        Clause::Enclosure | Clause::Order => &[Proviso::Enclosing, Proviso::Ordered],
        Clause::Smallest | Clause::Largest => &[Proviso::NoneBrought, Proviso::NotBack],
        Clause::Fixed => &[],
    }
}

/// Whether all provisos of a clause are met, and the one that alone is not.
fn asked_of(clause: Clause, met: &[Truth; Proviso::ALL.len()]) -> (Truth, Option<Proviso>) {
    let truth = |proviso: &Proviso| met[*proviso as usize];
    let all = asked(clause).iter().map(truth);
    let unmet = asked(clause).iter().filter(|one| truth(one) != Truth::Yes);
    let unmet: Vec<&Proviso> = unmet.collect();
    let alone = match unmet[..] {
        [proviso] => Some(*proviso),
        _ => None,
    };
    (all.fold(Truth::Yes, Truth::and), alone)
}

fn turned(schema: &CompiledSchema) -> Vec<usize> {
    let turns = schema.declarations.iter().filter(|&&id| {
        let definition = schema.registry.get(id);
        matches!(definition, Some(TypeDef::Message(_) | TypeDef::Union(_)))
    });
    let mut slots: Vec<usize> = turns.map(|id| id.index() as usize).collect();
    slots.sort_unstable();
    slots.dedup();
    slots
}
