//! Demand 3 tried by enumeration: the lengths of small schemas, by the length
//! rules of documents 01 and 02 and never from sizes, beside the rows of size
//! tables. In edition two enums and flags have retired ones, which hold their
//! widths, and fields have limits, which bound their elements. On the head board
//! both are rounded, and no sizes are brought.

pub mod clauses;
mod limits;
pub(crate) mod parts;
pub mod rules;
pub mod set;
pub mod small;
mod turns;

use std::fmt;
use std::ops::ControlFlow;

use crate::answer::moved::take_out_retired;
use crate::answer::{Answer, Bearing, Whole, PROGRAM_PLACES};
use crate::compare::{each_image, Selection};
use crate::format::{Edition, Entry, Layout};
use crate::generate::brought::bring_nothing;
use crate::generate::Families;
use crate::import::{import, Imported};
use crate::ir::{CompiledSchema, Encoding, FieldDef, ResolvedType, TypeDef};
use crate::library::Library;
use crate::model::Schema;
use crate::random::Random;
use crate::shrink::shrink;
use crate::workers::{in_parallel, THREADS};
use clauses::{Clause, Facts, Proviso, Tally};
use limits::LimitsMet;
use rules::lengths_of_slots;
use set::Lengths;

/// Images of the families are taken up to these.
const MOST_BYTES: usize = 120;
const MOST_SLOTS: usize = 8;

/// Type kinds and encodings, numbered as in an image.
const KINDS: usize = 17;
const ENCODINGS: usize = 4;

/// Whose size table it is, and how to get that of an accepted image.
#[derive(Clone, Copy)]
pub struct Subject {
    pub name: &'static str,
    pub table: Table,
}

/// The size table of an accepted image of so many slots; none if the subject
/// refuses it.
#[derive(Clone, Copy)]
pub enum Table {
    Rust(Entry),
    Sizes(Library),
    Check(Library),
}

impl Table {
    fn of(self, image: &[u8], slots: usize) -> Option<Vec<u64>> {
        let mut sizes = vec![0; 3 * slots];
        let verdict = match self {
            Table::Rust(entry) => {
                let whole = Whole::sizes_of(image, entry);
                return match whole.sizes_answer(3 * slots as u64) {
                    Ok(Answer::Accepted { sizes, .. }) => Some(sizes),
                    _ => None,
                };
            }
            Table::Sizes(library) => {
                let size = library.sizes.expect("a subject only if there is one");
                size(image, &mut sizes)
            }
            Table::Check(library) => {
                let mut findings = vec![0; PROGRAM_PLACES.findings as usize];
                let check = library.check.expect("a subject only if there is one");
                check(image, &mut sizes, &mut findings)
            }
        };
        (verdict.number == 0).then_some(sizes)
    }
}

/// The Rust, and the entries of the library that fill a size table of this
/// edition and layout.
pub fn subjects(entry: Entry, ours: Option<Library>) -> Vec<Subject> {
    let mut subjects = vec![Subject {
        name: "Rust",
        table: Table::Rust(entry),
    }];
    let check_name = match (entry.edition, entry.layout) {
        (Edition::One, Layout::Packed) => "vexil_check",
        (Edition::One, Layout::Aligned) => "vexil_check_aligned",
        (Edition::Two, Layout::Packed) => "vexil_check_two",
        (Edition::Two, Layout::Aligned) => "vexil_check_aligned_two",
    };
    if let Some(ours) = ours {
        let sizes = ours.sizes.map(|_| Table::Sizes(ours));
        subjects.extend(sizes.map(|table| Subject {
            name: "vexil_sizes",
            table,
        }));
        let check = ours.check.map(|_| Table::Check(ours));
        subjects.extend(check.map(|table| Subject {
            name: check_name,
            table,
        }));
    }
    subjects
}

/// What the schemas were like.
#[derive(Debug, Clone, Default)]
pub struct Met {
    pub schemas: u64,
    /// Declared messages and unions.
    pub slots: u64,
    pub brings: u64,
    /// Brings sizes, all ordered and enclosing.
    pub trusted: u64,
    pub back: u64,
    pub repeated: u64,
    /// A message's last turn differs from an earlier one in what is Fixed.
    pub moved: u64,
    pub dangling: u64,
    /// Declared messages and unions without a length.
    pub without: u64,
    /// Declared messages whose fields are all Fixed at their last turn.
    pub fixed: u64,
    /// Declared messages and unions that have other lengths packed.
    pub rounded: u64,
    /// Declared messages and unions that have other lengths without retired ones.
    pub held: u64,
    /// What has to do with arrays and their limits.
    pub limits: LimitsMet,
    pub kinds: [u64; KINDS],
    pub encodings: [u64; ENCODINGS],
}

/// An image that breaks demand 3, as small as could be found.
#[derive(Debug, Clone)]
pub struct Broken {
    pub subject: &'static str,
    pub image: Vec<u8>,
    pub told: String,
}

/// Schemas of one source, and what the clauses came to.
#[derive(Debug, Clone, Default)]
pub struct Part {
    pub met: Met,
    /// Per subject.
    pub tallies: Vec<(&'static str, Tally)>,
}

#[derive(Debug, Clone, Default)]
pub struct Summary {
    /// Generated for this.
    pub small: Part,
    /// Of the families, as far as they are small and accepted.
    pub families: Part,
    pub broken: Option<Broken>,
}

/// Judges the tables of generated small schemas, as many as `count`, and of the
/// small images among as many of the families.
pub fn run(count: u64, seed: u64, entry: Entry, subjects: &[Subject]) -> Summary {
    let parts = in_parallel(|worker| {
        let mut summary = Summary::of(subjects);
        for number in (worker..count).step_by(THREADS as usize) {
            let image = schema(seed, number, entry).bytes(entry.edition);
            let flow = run_one(&image, entry, subjects, &mut summary.small);
            if let ControlFlow::Break(broken) = flow {
                summary.broken = Some(broken);
                return summary;
            }
        }
        let selection = Selection {
            count,
            seed,
            families: Families::All,
            entry,
        };
        each_image(selection, worker, |_, image| {
            if image.len() > MOST_BYTES {
                return ControlFlow::Continue(());
            }
            let flow = run_one(image, entry, subjects, &mut summary.families);
            flow.map_break(|broken| summary.broken = Some(broken))
        });
        summary
    });
    let mut all = Summary::of(subjects);
    for part in parts {
        all.small.add(&part.small);
        all.families.add(&part.families);
        all.broken = all.broken.or(part.broken);
    }
    all
}

/// The schema of this number. The head board takes none that brings sizes.
pub fn schema(seed: u64, number: u64, entry: Entry) -> Schema {
    let mut schema = small::small(&mut Random::new(seed, number), entry.edition);
    if entry.layout == Layout::Aligned {
        bring_nothing(&mut schema);
    }
    schema
}

fn run_one(
    image: &[u8],
    entry: Entry,
    subjects: &[Subject],
    part: &mut Part,
) -> ControlFlow<Broken> {
    let Some((imported, noted)) = accepted(image, entry) else {
        return ControlFlow::Continue(());
    };
    let facts = Facts::of(&imported.schema, entry.layout);
    part.met.count(&imported.schema, &facts);
    let limits = &mut part.met.limits;
    limits.count(&imported.schema, &facts, entry.layout, &noted);
    if entry.layout == Layout::Aligned {
        part.met.count_rounded(&imported.schema, &facts);
    }
    if entry.edition == Edition::Two {
        part.met.count_held(&imported.schema, &facts, entry.layout);
    }
    for (subject, (_, tally)) in subjects.iter().zip(&mut part.tallies) {
        let slots = imported.starts.len();
        if let Some(told) = told(image, &facts, subject, slots, tally) {
            return ControlFlow::Break(smallest(image, entry, told, subject));
        }
    }
    ControlFlow::Continue(())
}

impl Part {
    fn of(subjects: &[Subject]) -> Self {
        let tallies = subjects.iter();
        Self {
            met: Met::default(),
            tallies: tallies.map(|one| (one.name, Tally::default())).collect(),
        }
    }

    fn add(&mut self, other: &Self) {
        self.met.add(&other.met);
        for ((_, tally), (_, more)) in self.tallies.iter_mut().zip(&other.tallies) {
            tally.add(more);
        }
    }
}

impl Summary {
    fn of(subjects: &[Subject]) -> Self {
        Self {
            small: Part::of(subjects),
            families: Part::of(subjects),
            broken: None,
        }
    }

    /// Counts that are too low for the run to mean much, with what they ought
    /// to be at least.
    pub fn too_low(&self, count: u64, entry: Entry) -> Vec<String> {
        let mut low = Vec::new();
        let mut floor = |what: String, met: u64, one_in: u64| {
            let least = (count / one_in).max(1);
            if met < least {
                low.push(format!("{what}: {met}, at least {least}"));
            }
        };
        let others = self.families.met.schemas;
        floor("images of families".into(), others, 10);
        for (what, met, one_in) in self.small.met.floors(entry) {
            floor(what, met, one_in);
        }
        for (subject, tally) in &self.small.tallies {
            for (at, (clause, one_in)) in Clause::ALL.into_iter().zip(HELD).enumerate() {
                floor(format!("{subject}, {clause:?}"), tally.held[at], one_in);
                let known = tally.held[at] / MOST_PAST >= tally.unknown[at];
                let what = format!("{subject}, {clause:?}, within the horizon");
                floor(what, if known { count } else { 0 }, 1);
            }
            for &(proviso, one_in) in needed(entry.layout) {
                let needed = tally.needed[proviso as usize];
                floor(format!("{subject}, {proviso:?} needed"), needed, one_in);
            }
        }
        low
    }
}

/// A clause has to hold, its provisos met, once in so many schemas; in the
/// order of `Clause::ALL`.
const HELD: [u64; Clause::ALL.len()] = [1, 2, 2, 4, 2];
/// At most one in so many may hang on lengths past the horizon.
const MOST_PAST: u64 = 100;

/// Provisos that have to be needed once in so many schemas. On the head board
/// no sizes are brought, and those about them are always met.
fn needed(layout: Layout) -> &'static [(Proviso, u64)] {
    let all = &[
        (Proviso::NotBack, 25),
        (Proviso::NoneBrought, 50),
        (Proviso::Enclosing, 200),
        (Proviso::Ordered, 800),
    ];
    match layout {
        Layout::Packed => all,
        Layout::Aligned => &all[..1],
    }
}

impl Met {
    fn count(&mut self, schema: &CompiledSchema, facts: &Facts) {
        self.schemas += 1;
        self.slots += facts.slots.len() as u64;
        let trusted = facts.ordered && facts.enclosing == clauses::Truth::Yes;
        self.brings += u64::from(!facts.none_brought);
        self.trusted += u64::from(!facts.none_brought && trusted);
        let any = |fact: &dyn Fn(usize) -> bool| facts.slots.iter().any(|&slot| fact(slot));
        self.back += u64::from(any(&|slot| facts.back[slot]));
        let turns = |slot| {
            let ids = schema.declarations.iter();
            ids.filter(|id| id.index() as usize == slot).count()
        };
        self.repeated += u64::from(any(&|slot| turns(slot) > 1));
        self.moved += u64::from(facts.last_turns.moved);
        let ids = &schema.declarations;
        let dangling = ids.iter().any(|&id| schema.registry.get(id).is_none());
        self.dangling += u64::from(dangling);
        let slots = facts.slots.iter();
        self.without += slots
            .filter(|&&slot| facts.lengths[slot].is_empty())
            .count() as u64;
        let sums = facts.last_turns.sums.iter();
        self.fixed += sums.filter(|sum| matches!(sum, Some(Some(_)))).count() as u64;
        self.count_types(schema, facts);
    }

    fn count_rounded(&mut self, schema: &CompiledSchema, facts: &Facts) {
        let packed = lengths_of_slots(schema, Layout::Packed);
        self.rounded += others(facts, &packed);
    }

    fn count_held(&mut self, schema: &CompiledSchema, facts: &Facts, layout: Layout) {
        let mut alone = schema.clone();
        take_out_retired(&mut alone);
        self.held += others(facts, &lengths_of_slots(&alone, layout));
    }

    fn count_types(&mut self, schema: &CompiledSchema, facts: &Facts) {
        for &slot in &facts.slots {
            match schema.registry.get(crate::ir::TypeId(slot as u32)) {
                Some(TypeDef::Message(message)) => self.count_fields(&message.fields),
                Some(TypeDef::Union(un)) => {
                    let variants = un.variants.iter();
                    variants.for_each(|variant| self.count_fields(&variant.fields));
                }
                _ => {}
            }
        }
    }

    fn count_fields(&mut self, fields: &[FieldDef]) {
        for field in fields {
            let encoding = match field.encoding.encoding {
                Encoding::Default => 0,
                Encoding::Varint => 1,
                Encoding::ZigZag => 2,
                Encoding::Delta(_) => 3,
            };
            self.encodings[encoding] += 1;
            if encoding == 0 {
                self.count_type(&field.resolved_type);
            }
        }
    }

    fn count_type(&mut self, ty: &ResolvedType) {
        let (kind, parts): (usize, &[&ResolvedType]) = match ty {
            ResolvedType::Primitive(_) => (0, &[]),
            ResolvedType::SubByte(_) => (1, &[]),
            ResolvedType::Semantic(_) => (2, &[]),
            ResolvedType::Named(_) => (3, &[]),
            ResolvedType::Optional(part) => (4, &[part]),
            ResolvedType::Array(_) => (5, &[]),
            ResolvedType::FixedArray(part, _) => (6, &[part]),
            ResolvedType::Set(_) => (7, &[]),
            ResolvedType::Map(_, _) => (8, &[]),
            ResolvedType::Result(ok, err) => (9, &[ok, err]),
            ResolvedType::Vec2(part) => (10, &[part]),
            ResolvedType::Vec3(part) => (11, &[part]),
            ResolvedType::Vec4(part) => (12, &[part]),
            ResolvedType::Quat(part) => (13, &[part]),
            ResolvedType::Mat3(part) => (14, &[part]),
            ResolvedType::Mat4(part) => (15, &[part]),
            ResolvedType::BitsInline(_) => (16, &[]),
        };
        self.kinds[kind] += 1;
        parts.iter().for_each(|part| self.count_type(part));
    }

    /// What is counted, and once in how many schemas it has to be met.
    fn floors(&self, entry: Entry) -> Vec<(String, u64, u64)> {
        let mut floors = vec![
            ("schemas".into(), self.schemas, 1),
            ("lead back".into(), self.back, 10),
            ("declare again".into(), self.repeated, 10),
            ("declare nothing".into(), self.dangling, 10),
            ("without lengths".into(), self.without, 20),
            ("Fixed messages".into(), self.fixed, 5),
        ];
        match entry.layout {
            // Without sizes that are brought no turn changes what is Fixed.
            Layout::Packed => floors.extend([
                ("bring sizes".into(), self.brings, 5),
                ("bring trusted sizes".into(), self.trusted, 10),
                ("Fixed by the last turn".into(), self.moved, 200),
            ]),
            Layout::Aligned => floors.push(("rounded".into(), self.rounded, 2)),
        }
        if entry.edition == Edition::Two {
            floors.push(("held by retired ones".into(), self.held, 50));
        }
        floors.extend(self.limits.floors(entry.edition));
        for (kind, &count) in self.kinds.iter().enumerate() {
            floors.push((format!("type kind {kind}"), count, 50));
        }
        for (encoding, &count) in self.encodings.iter().enumerate() {
            floors.push((format!("encoding {encoding}"), count, 20));
        }
        floors
    }

    fn add(&mut self, other: &Self) {
        let pairs = [
            (&mut self.schemas, other.schemas),
            (&mut self.slots, other.slots),
            (&mut self.brings, other.brings),
            (&mut self.trusted, other.trusted),
            (&mut self.back, other.back),
            (&mut self.repeated, other.repeated),
            (&mut self.moved, other.moved),
            (&mut self.dangling, other.dangling),
            (&mut self.without, other.without),
            (&mut self.fixed, other.fixed),
            (&mut self.rounded, other.rounded),
            (&mut self.held, other.held),
        ];
        pairs.into_iter().for_each(|(count, more)| *count += more);
        self.limits.add(&other.limits);
        let kinds = self.kinds.iter_mut().zip(other.kinds);
        let encodings = self.encodings.iter_mut().zip(other.encodings);
        kinds.chain(encodings).for_each(|(one, more)| *one += more);
    }
}

/// Declared messages and unions whose lengths are not these.
fn others(facts: &Facts, lengths: &[Lengths]) -> u64 {
    let slots = facts.slots.iter();
    let others = slots.filter(|&&slot| facts.lengths[slot] != lengths[slot]);
    others.count() as u64
}

/// The image as imported, and what its limits bear on, if the Rust accepts it and
/// does not take too long.
fn accepted(image: &[u8], entry: Entry) -> Option<(Imported, Bearing)> {
    let imported = import(image, entry.edition).ok()?;
    if imported.starts.len() > MOST_SLOTS {
        return None;
    }
    let whole = Whole::sizes_of(image, entry);
    match whole.sizes_answer(u64::MAX) {
        Ok(Answer::Accepted { .. }) => Some((imported, whole.notes.limits)),
        _ => None,
    }
}

/// What is wrong with a subject's table, if anything is.
fn told(
    image: &[u8],
    facts: &Facts,
    subject: &Subject,
    slots: usize,
    tally: &mut Tally,
) -> Option<String> {
    match subject.table.of(image, slots) {
        None => Some("an accepted image is refused".into()),
        Some(table) => facts.judge(&table, tally).map(|broken| broken.to_string()),
    }
}

/// The smallest image found on which a clause is broken, the first one at least.
fn smallest(image: &[u8], entry: Entry, told_first: String, subject: &Subject) -> Broken {
    let mut smallest = Broken {
        subject: subject.name,
        image: image.to_vec(),
        told: told_first,
    };
    shrink(image, &mut |tried| {
        let Some((imported, _)) = accepted(tried, entry) else {
            return false;
        };
        let facts = Facts::of(&imported.schema, entry.layout);
        let slots = imported.starts.len();
        let Some(told) = told(tried, &facts, subject, slots, &mut Tally::default()) else {
            return false;
        };
        smallest.image = tried.to_vec();
        smallest.told = told;
        true
    });
    smallest
}

impl fmt::Display for Summary {
    fn fmt(&self, out: &mut fmt::Formatter<'_>) -> fmt::Result {
        write!(out, "small schemas: {}", self.small)?;
        write!(out, "small images of the families: {}", self.families)
    }
}

impl fmt::Display for Part {
    fn fmt(&self, out: &mut fmt::Formatter<'_>) -> fmt::Result {
        writeln!(out, "{}", self.met)?;
        for (subject, tally) in &self.tallies {
            write!(out, "{subject:20}")?;
            for (at, clause) in Clause::ALL.into_iter().enumerate() {
                let (held, idle, past) = (tally.held[at], tally.idle[at], tally.unknown[at]);
                write!(out, " {clause:?} {held} ({idle}, {past})")?;
            }
            write!(out, "; false without")?;
            for proviso in Proviso::ALL {
                write!(out, " {proviso:?} {}", tally.needed[proviso as usize])?;
            }
            writeln!(out)?;
        }
        Ok(())
    }
}

impl fmt::Display for Met {
    fn fmt(&self, out: &mut fmt::Formatter<'_>) -> fmt::Result {
        let Self { schemas, slots, .. } = self;
        write!(
            out,
            "{schemas}, with {slots} declared messages and unions, {} of them Fixed, {} without \
             lengths, {} rounded; bring sizes {} (trusted {}), lead back {}, declare again {} (Fixed by the last \
             turn {}), declare nothing {}; \
             type kinds {:?}, encodings {:?}",
            self.fixed,
            self.without,
            self.rounded,
            self.brings,
            self.trusted,
            self.back,
            self.repeated,
            self.moved,
            self.dangling,
            self.kinds,
            self.encodings
        )?;
        // Edition one has none.
        match self.held {
            0 => {}
            held => write!(out, "; held by retired ones {held}")?,
        }
        self.limits.fmt(out)
    }
}
