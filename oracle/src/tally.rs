//! Counts of answers by family and number.

use std::fmt;

use crate::answer::{
    AddedCounts, AlignedCounts, Classes, FieldCounts, LimitedCounts, Operation, Part, PassedLimit,
    RetiredCounts, Unions, Whole,
};
use crate::format::{Edition, Entry, Layout};
use crate::generate::{FAMILIES, FIRST_EDITION};

/// The answers there are: accepted, and the refusals; the last is the head
/// board's alone.
const NUMBERS: [usize; 15] = [0, 1, 2, 3, 4, 5, 6, 7, 8, 9, 10, 11, 12, 14, 15];

/// The answers of a layout.
pub fn numbers(layout: Layout) -> &'static [usize] {
    match layout {
        Layout::Packed => &NUMBERS[..NUMBERS.len() - 1],
        Layout::Aligned => &NUMBERS,
    }
}

/// Columns: one a number, and checks that would take too long.
pub const TOO_LONG: usize = NUMBERS[NUMBERS.len() - 1] + 1;
pub const COLUMNS: usize = TOO_LONG + 1;

/// First steps past the limit: by the part they stand in, sums and products.
pub type FirstSteps = [[u64; 2]; Part::ALL.len()];

/// Calls one in another from which on an image counts as deep.
const DEEP: u64 = 1_000;

/// Images of a run of edition two for each of which one has to be of edition one.
const FIRST_EDITION_EACH: u64 = 50;

/// Images of a run for each of which one has to be answered this number.
fn images_each(number: usize, edition: Edition) -> u64 {
    match (number, edition) {
        // Images above 65,536 bytes are rare.
        (1, Edition::One) => 200_000,
        (1, Edition::Two) => 4_000,
        (15, Edition::One) => 20,
        (15, Edition::Two) => 30,
        _ => 20_000,
    }
}

/// So many of a run's images as are of families that have many trait fields.
fn with_trait_fields(images: u64, entry: Entry) -> u64 {
    match entry {
        Entry::ONE => images,
        Entry::TWO => images * 3 / 5,
        Entry::ALIGNED => images / 2,
        Entry::ALIGNED_TWO => images * 2 / 5,
    }
}

/// So many as have what edition two adds; the head board has families besides.
fn with_additions(images: u64, layout: Layout) -> u64 {
    match layout {
        Layout::Packed => images,
        Layout::Aligned => images * 2 / 3,
    }
}

/// So many as the head board's own families are among; edition two has others besides.
fn with_head_board(images: u64, edition: Edition) -> u64 {
    match edition {
        Edition::One => images,
        Edition::Two => images * 3 / 4,
    }
}

#[derive(Debug, Clone)]
pub struct Tally {
    rows: Vec<[u64; COLUMNS]>,
    /// By family, images that have a finding of a class.
    classes: Vec<Classes>,
    findings: Classes,
    fields: FieldCounts,
    /// Images that go deep, and how deep the deepest goes.
    deep: u64,
    deepest: u64,
    unions: Unions,
    first_steps: FirstSteps,
    /// What edition two adds; none in a run of edition one.
    added: AddedCounts,
    /// What retired ones change; nothing in a run of edition one.
    retired: RetiredCounts,
    /// What limits change; nothing in a run of edition one.
    limited: LimitedCounts,
    /// What the head board changes; nothing in a run of the packed layout.
    aligned: AlignedCounts,
}

impl Default for Tally {
    fn default() -> Self {
        Self {
            rows: vec![[0; COLUMNS]; FAMILIES.len()],
            classes: vec![Classes::default(); FAMILIES.len()],
            findings: Classes::default(),
            fields: FieldCounts::default(),
            deep: 0,
            deepest: 0,
            unions: [0; 3],
            first_steps: FirstSteps::default(),
            added: AddedCounts::default(),
            retired: RetiredCounts::default(),
            limited: LimitedCounts::default(),
            aligned: AlignedCounts::default(),
        }
    }
}

impl Tally {
    pub fn count(&mut self, family: usize, column: usize) {
        self.rows[family][column] += 1;
    }

    /// Counts how deep the calls for one image go, the turns of unions, the
    /// step that passes the limit, findings and trait fields.
    pub fn look_into(&mut self, family: usize, whole: &Whole) {
        self.deep += u64::from(whole.deepest >= DEEP);
        self.deepest = self.deepest.max(whole.deepest);
        add_counts(&mut self.unions, &whole.unions);
        if let Some(passed) = whole.passed_limit() {
            self.count_first_step(passed);
        }
        let classes = whole.classes();
        add_counts(&mut self.findings, &classes);
        let there = classes.map(|count| u64::from(count > 0));
        add_counts(&mut self.classes[family], &there);
        self.fields.add(&whole.fields);
        self.added.add(&whole.added);
    }

    /// Counts what edition one makes of an image of edition two, what its live ones
    /// alone and its fields without limits come to, and what the packed layout makes
    /// of one for the head board.
    pub fn look_across(&mut self, image: &[u8], entry: Entry, whole: &Whole) {
        if entry.edition == Edition::Two && whole.refusal().is_none() {
            let first = Entry {
                edition: Edition::One,
                ..entry
            };
            self.added.count_both(&Whole::of(image, first), whole);
            self.retired.count(image, entry, whole);
            self.limited.count(image, entry, whole);
        }
        if entry.layout == Layout::Aligned {
            self.aligned.count(image, entry.edition, whole);
        }
    }

    fn count_first_step(&mut self, passed: PassedLimit) {
        for (counts, inside) in self.first_steps.iter_mut().zip(passed.inside) {
            let [sums, products] = counts;
            match passed.operation {
                Operation::Sum => *sums += u64::from(inside),
                Operation::Product => *products += u64::from(inside),
            }
        }
    }

    pub fn add(&mut self, other: &Tally) {
        for (row, more) in self.rows.iter_mut().zip(&other.rows) {
            add_counts(row, more);
        }
        for (classes, more) in self.classes.iter_mut().zip(&other.classes) {
            add_counts(classes, more);
        }
        add_counts(&mut self.findings, &other.findings);
        self.fields.add(&other.fields);
        self.deep += other.deep;
        self.deepest = self.deepest.max(other.deepest);
        add_counts(&mut self.unions, &other.unions);
        for (counts, more) in self.first_steps.iter_mut().zip(&other.first_steps) {
            add_counts(counts, more);
        }
        self.added.add(&other.added);
        self.retired.add(&other.retired);
        self.limited.add(&other.limited);
        self.aligned.add(&other.aligned);
    }

    /// Images with a step past the limit, by the first such step.
    pub fn first_steps(&self) -> FirstSteps {
        self.first_steps
    }

    /// What a run over all families has too few of, lest it show nothing:
    /// trait fields, images by class of finding, images by refusal, what
    /// edition two adds, what its retired ones and limits change and what the head
    /// board does.
    pub fn below_floor(&self, entry: Entry) -> Vec<String> {
        let Entry { edition, layout } = entry;
        let images = self.images();
        let floor = FieldCounts::floor(with_trait_fields(images, entry));
        let mut held = Vec::new();
        for (what, count) in self.fields.each() {
            held.push((format!("trait fields, {what}"), count, floor));
        }
        for (class, count) in (1..).zip(self.class_totals()) {
            held.push((format!("images with class {class}"), count, floor));
        }
        // Only calls with shorter tables than the program's answer 10.
        let totals = self.totals();
        for &number in numbers(layout).iter().filter(|&&number| number != 10) {
            let what = format!("images answered {number}");
            held.push((what, totals[number], images / images_each(number, edition)));
        }
        if edition == Edition::Two {
            let adding = with_additions(images, layout);
            held.extend(self.added.held(adding));
            held.extend(self.retired.held(adding));
            held.extend(self.limited.held(adding));
            let what = "images of edition one".into();
            held.push((what, self.first_edition(), images / FIRST_EDITION_EACH));
        }
        if layout == Layout::Aligned {
            held.extend(self.aligned.held(with_head_board(images, edition)));
        }
        let few = held.into_iter().filter(|(_, count, floor)| count < floor);
        few.map(|(what, count, floor)| format!("{what}: {count}, not {floor}"))
            .collect()
    }

    /// Images of edition one that were read in edition two.
    fn first_edition(&self) -> u64 {
        let rows = FAMILIES.iter().zip(&self.rows);
        let rows = rows.filter(|(family, _)| family.name == FIRST_EDITION);
        rows.flat_map(|(_, row)| row).sum()
    }

    fn class_totals(&self) -> Classes {
        let mut totals = Classes::default();
        for classes in &self.classes {
            add_counts(&mut totals, classes);
        }
        totals
    }

    /// Turns of unions in the images that have a size table.
    pub fn unions(&self) -> Unions {
        self.unions
    }

    /// How often each number was answered, over all families.
    pub fn totals(&self) -> [u64; COLUMNS] {
        let mut totals = [0; COLUMNS];
        self.rows
            .iter()
            .for_each(|row| add_counts(&mut totals, row));
        totals
    }

    pub fn images(&self) -> u64 {
        self.totals().iter().sum()
    }
}

fn add_counts<const N: usize>(counts: &mut [u64; N], more: &[u64; N]) {
    for (count, more) in counts.iter_mut().zip(more) {
        *count += more;
    }
}

impl fmt::Display for Tally {
    fn fmt(&self, out: &mut fmt::Formatter<'_>) -> fmt::Result {
        self.write_numbers(out)?;
        self.write_classes(out)?;
        self.fields.fmt(out)?;
        if self.added != AddedCounts::default() {
            self.added.fmt(out)?;
        }
        if self.retired != RetiredCounts::default() {
            self.retired.fmt(out)?;
        }
        if self.limited != LimitedCounts::default() {
            self.limited.fmt(out)?;
        }
        if self.aligned != AlignedCounts::default() {
            self.aligned.fmt(out)?;
        }
        let Self { deep, deepest, .. } = self;
        writeln!(
            out,
            "calls one in another: {deepest} at most, {DEEP} or more on {deep} images"
        )?;
        let [none, one, more] = self.unions;
        writeln!(
            out,
            "turns of unions: {none} without variants, {one} with one, {more} with more"
        )?;
        let told = Part::ALL.iter().zip(self.first_steps);
        let told = told.map(|(part, [sums, products])| {
            let name = part.name();
            format!("{name} {sums} and {products}")
        });
        let told: Vec<String> = told.collect();
        writeln!(
            out,
            "first steps past the limit, sums and products in a {}",
            told.join(", ")
        )
    }
}

impl Tally {
    /// Images by family and answer.
    fn write_numbers(&self, out: &mut fmt::Formatter<'_>) -> fmt::Result {
        let totals = self.totals();
        let used: Vec<usize> = (0..COLUMNS).filter(|&column| totals[column] > 0).collect();
        write!(out, "{:15}{:>9}", "family", "images")?;
        for &column in &used {
            match column {
                0 => write!(out, "{:>9}", "accepted")?,
                TOO_LONG => write!(out, "{:>9}", "too long")?,
                number => write!(out, "{number:>9}")?,
            }
        }
        writeln!(out)?;
        let named = FAMILIES.iter().map(|family| family.name).zip(&self.rows);
        for (name, row) in named.chain([("all", &totals)]) {
            let images: u64 = row.iter().sum();
            if images > 0 {
                write!(out, "{name:15}{images:>9}")?;
                for &column in &used {
                    write!(out, "{:>9}", row[column])?;
                }
                writeln!(out)?;
            }
        }
        Ok(())
    }

    /// Images by family and the classes of their findings.
    fn write_classes(&self, out: &mut fmt::Formatter<'_>) -> fmt::Result {
        write!(out, "{:15}", "images with")?;
        for class in 1..=4 {
            write!(out, "{:>9}", format!("class {class}"))?;
        }
        writeln!(out)?;
        for (family, classes) in FAMILIES.iter().zip(&self.classes) {
            if *classes != [0; 4] {
                write_row(out, family.name, classes)?;
            }
        }
        write_row(out, "all", &self.class_totals())?;
        write_row(out, "findings", &self.findings)
    }
}

fn write_row(out: &mut fmt::Formatter<'_>, name: &str, counts: &[u64]) -> fmt::Result {
    write!(out, "{name:15}")?;
    for count in counts {
        write!(out, "{count:>9}")?;
    }
    writeln!(out)
}
