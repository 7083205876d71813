//! Runs the library over images beside the Rust and stops at a difference.

use std::ops::ControlFlow;
use std::sync::atomic::{AtomicU64, Ordering};

use crate::answer::{Answer, Whole, PROGRAM_PLACES};
use crate::format::{Edition, Entry, Layout};
use crate::generate::{batch, Families};
use crate::library::{calls, expected, Call, Library, Reply};
use crate::shrink::shrink;
use crate::tally::{Tally, COLUMNS, TOO_LONG};
use crate::workers::{in_parallel, on_long_stack, THREADS};

/// Which images to run over.
#[derive(Debug, Clone, Copy)]
pub struct Selection {
    pub count: u64,
    pub seed: u64,
    pub families: Families,
    /// How the images are to be read and answered.
    pub entry: Entry,
}

/// An image, as small as could be found, and a call that answers it wrongly.
#[derive(Debug, Clone, PartialEq)]
pub struct Difference {
    pub image: Vec<u8>,
    pub call: Call,
    pub expected: Reply,
    pub ours: Reply,
}

/// What a run met.
#[derive(Debug, Default)]
pub struct Outcome {
    /// Images, by the answer with the places of the program.
    pub tally: Tally,
    /// Calls, by the number that they had to answer.
    pub calls: [u64; COLUMNS],
    /// Images that the run was to take.
    pub asked: u64,
    /// The number of the first image that differs; the workers take turns.
    pub first: Option<u64>,
    /// The difference there, as it was seen.
    pub difference: Option<Difference>,
}

impl Outcome {
    /// Whether every image was asked for and answered alike.
    pub fn passed(&self) -> bool {
        self.difference.is_none() && self.complete()
    }

    pub fn complete(&self) -> bool {
        self.tally.images() == self.asked
    }

    /// What a run over all families has too few of. Refusal 10 takes shorter
    /// tables than the program's, so it is looked for among the calls.
    pub fn below_floor(&self, entry: Entry) -> Vec<String> {
        let mut few = self.tally.below_floor(entry);
        if self.calls[10] == 0 {
            few.push("calls answered 10: 0, not 1".into());
        }
        few
    }

    /// The same with the difference made as small as the library lets it; it
    /// stays as it was seen if the library errs no more.
    pub fn shrunk(mut self, ours: Library) -> Self {
        let difference = self.difference.take();
        self.difference = difference.map(|difference| on_long_stack(|| shrunk(difference, ours)));
        self
    }
}

/// One outcome of the workers' own. Of several differences that of the lowest
/// image counts, whichever thread came first.
fn joined(outcomes: Vec<Outcome>, asked: u64) -> Outcome {
    let mut all = Outcome {
        asked,
        ..Outcome::default()
    };
    for outcome in outcomes {
        all.tally.add(&outcome.tally);
        for (count, more) in all.calls.iter_mut().zip(outcome.calls) {
            *count += more;
        }
        let earlier = match (outcome.first, all.first) {
            (Some(number), Some(first)) => number < first,
            (number, _) => number.is_some(),
        };
        if earlier {
            (all.first, all.difference) = (outcome.first, outcome.difference);
        }
    }
    all
}

/// Calls `visit` with the images of a selection that fall to one worker; the
/// same selection always gives the same images.
pub fn each_image(
    selection: Selection,
    worker: u64,
    mut visit: impl FnMut(usize, &[u8]) -> ControlFlow<()>,
) {
    let share = selection.count / THREADS + u64::from(worker < selection.count % THREADS);
    let mut left = share;
    let mut number = worker;
    while left > 0 {
        let Selection {
            seed,
            families,
            entry,
            ..
        } = selection;
        batch(seed, number, families, entry, |family, image| {
            if left > 0 {
                left -= 1;
                if visit(family, image).is_break() {
                    left = 0;
                }
            }
        });
        number += THREADS;
    }
}

/// Compares a library with the Rust on generated images for it.
pub fn compare(selection: Selection, ours: Library) -> Outcome {
    assert_eq!(selection.entry, ours.entry, "images and library");
    let lowest = AtomicU64::new(u64::MAX);
    let outcomes = in_parallel(|worker| {
        let mut pair = Pair::new(ours, worker, &lowest);
        each_image(selection, worker, |family, image| pair.run(image, family));
        pair.outcome
    });
    joined(outcomes, selection.count)
}

/// Images with a gap: what stands before it and after it.
#[derive(Clone, Copy)]
struct Gap {
    before: &'static [u8],
    after: &'static [u8],
}

/// Where edition two adds a number: the limit of a message field and of a
/// variant field, the retired count of an enum and of flags, and a retired
/// ordinal.
const ADDED: [Gap; 5] = [
    ending_at(&[1, 0, 1, 1, 0, 0, 0, 1, 0, 0, 0, 1]),
    ending_at(&[1, 0, 1, 4, 0, 1, 1, 0, 0, 0, 1]),
    ending_at(&[0, 1, 2, 0, 0, 0, 0]),
    ending_at(&[0, 1, 3, 0, 1, 4]),
    ending_at(&[0, 1, 2, 0, 0, 0, 0, 1]),
];

/// A retired one that bears on the width of a declared slot: of an enum, of one
/// that is non_exhaustive, of flags, and of an enum that has a live 5.
const HELD: [Gap; 4] = [
    around(&[0, 1, 2, 0, 0, 0, 0, 1], &[1, 0]),
    around(&[0, 1, 2, 0, 1, 0, 0, 1], &[1, 0]),
    around(&[0, 1, 3, 0, 0, 1], &[1, 0]),
    around(&[0, 1, 2, 0, 0, 0, 1, 5, 1], &[1, 0]),
];

/// What a limit bears on in a field of a declared message: the element of an array,
/// at most three; how many U8 an array has; the key of a map to U8, at most three.
const LIMITED: [Gap; 3] = [
    around(&[1, 0, 1, 1, 0, 0, 0, 1, 0, 0, 5], &[3, 1, 0]),
    around(&[1, 0, 1, 1, 0, 0, 0, 1, 0, 0, 5, 0, 1], &[1, 0]),
    around(&[1, 0, 1, 1, 0, 0, 0, 1, 0, 0, 8], &[0, 1, 3, 1, 0]),
];

/// What bears on the head board, the slot being declared: the size that a
/// message or a union brings, up to its last number, and the type of a message
/// field, of edition one and with a limit of 0.
const ALIGNED: [Gap; 4] = [
    around(&[0, 1, 1, 0, 0], &[0, 0, 1, 0]),
    around(&[0, 1, 4], &[0, 0, 1, 0]),
    around(&[1, 0, 1, 1, 0, 0, 0, 1, 0, 0], &[1, 0]),
    around(&[1, 0, 1, 1, 0, 0, 0, 1, 0, 0], &[0, 1, 0]),
];

const fn ending_at(before: &'static [u8]) -> Gap {
    around(before, &[])
}

const fn around(before: &'static [u8], after: &'static [u8]) -> Gap {
    Gap { before, after }
}

/// Compares on all images of up to `bytes` bytes, on all that have as many in a
/// gap that bears on the head board, and on all that have a byte less where
/// edition two adds a number, a retired one holds a width or a limit bears on
/// elements; the family does not count.
pub fn exhaustive(bytes: usize, ours: Library) -> Outcome {
    let mut gaps = vec![(ending_at(&[]), bytes)];
    if ours.entry.edition == Edition::Two {
        let all = ADDED.into_iter().chain(HELD).chain(LIMITED);
        gaps.extend(all.map(|gap| (gap, bytes.saturating_sub(1))));
    }
    if ours.entry.layout == Layout::Aligned {
        gaps.extend(ALIGNED.map(|gap| (gap, bytes)));
    }
    let lowest = AtomicU64::new(u64::MAX);
    let outcomes = in_parallel(|worker| {
        let mut pair = Pair::new(ours, worker, &lowest);
        for &(gap, bytes) in &gaps {
            if pair.run_all(gap, bytes, worker).is_break() {
                break;
            }
        }
        pair.outcome
    });
    let images = |bytes: usize| (0..=bytes).map(|length| 256u64.pow(length as u32));
    let asked = gaps.iter().flat_map(|&(_, bytes)| images(bytes)).sum();
    joined(outcomes, asked)
}

/// The next bytes of this length, the last one counting up first.
fn advance(bytes: &mut [u8]) -> bool {
    for byte in bytes.iter_mut().rev() {
        *byte = byte.wrapping_add(1);
        if *byte != 0 {
            return true;
        }
    }
    false
}

struct Pair<'a> {
    ours: Library,
    /// The number of the next image.
    number: u64,
    /// The lowest number of an image that differs.
    lowest: &'a AtomicU64,
    outcome: Outcome,
}

impl<'a> Pair<'a> {
    fn new(ours: Library, worker: u64, lowest: &'a AtomicU64) -> Self {
        Self {
            ours,
            number: worker,
            lowest,
            outcome: Outcome::default(),
        }
    }

    /// Runs over this worker's share of the images that have up to so many bytes
    /// in a gap.
    fn run_all(&mut self, gap: Gap, bytes: usize, worker: u64) -> ControlFlow<()> {
        let Gap { before, after } = gap;
        for length in 0..=bytes {
            let mut image = before.to_vec();
            image.resize(before.len() + length, 0);
            image.extend_from_slice(after);
            let mut turn = 0;
            loop {
                // The workers share the images by the last byte in the gap.
                if turn % THREADS == worker {
                    self.run(&image, 0)?;
                }
                turn += 1;
                if !advance(&mut image[before.len()..before.len() + length]) {
                    break;
                }
            }
        }
        ControlFlow::Continue(())
    }

    /// Runs over one image; breaks off at one that differs, and past the
    /// lowest that does.
    fn run(&mut self, image: &[u8], family: usize) -> ControlFlow<()> {
        if self.number > self.lowest.load(Ordering::Relaxed) {
            return ControlFlow::Break(());
        }
        let whole = worked_out(image, self.ours);
        let column = column(&whole, self.ours);
        self.outcome.tally.count(family, column);
        self.outcome.tally.look_into(family, &whole);
        let entry = self.ours.entry;
        self.outcome.tally.look_across(image, entry, &whole);
        let differs = first_difference(image, &whole, self.ours, &mut self.outcome.calls);
        if differs.is_some() {
            self.lowest.fetch_min(self.number, Ordering::Relaxed);
            self.outcome.first = Some(self.number);
            self.outcome.difference = differs;
            return ControlFlow::Break(());
        }
        self.number += THREADS;
        ControlFlow::Continue(())
    }
}

/// Findings are worked out only if the library has them.
fn worked_out(image: &[u8], ours: Library) -> Whole {
    match ours.check {
        Some(_) => Whole::of(image, ours.entry),
        None => Whole::sizes_of(image, ours.entry),
    }
}

fn column(whole: &Whole, ours: Library) -> usize {
    let answer = match ours.check {
        Some(_) => whole.answer(PROGRAM_PLACES),
        None => whole.sizes_answer(PROGRAM_PLACES.sizes),
    };
    match answer {
        Ok(Answer::Accepted { .. }) => 0,
        Ok(Answer::Refused { number, .. }) => number as usize,
        Err(_) => TOO_LONG,
    }
}

/// Makes all calls for an image, those aside whose answer would take too
/// long, and counts them by what they have to answer.
fn first_difference(
    image: &[u8],
    whole: &Whole,
    ours: Library,
    counts: &mut [u64; COLUMNS],
) -> Option<Difference> {
    for call in calls(whole, ours) {
        let Ok(expected) = expected(whole, call) else {
            counts[TOO_LONG] += 1;
            continue;
        };
        counts[expected.verdict.number as usize] += 1;
        let reply = ours.reply(image, call);
        if reply != expected {
            return Some(Difference {
                image: image.to_vec(),
                call,
                expected,
                ours: reply,
            });
        }
    }
    None
}

fn difference_on(image: &[u8], ours: Library) -> Option<Difference> {
    let whole = worked_out(image, ours);
    first_difference(image, &whole, ours, &mut [0; COLUMNS])
}

/// The smallest image found on which the library errs, from one on which it
/// did; that one itself if it errs no more.
fn shrunk(difference: Difference, ours: Library) -> Difference {
    let image = difference.image.clone();
    let mut smallest = difference;
    shrink(&image, &mut |tried| match difference_on(tried, ours) {
        Some(smaller) => {
            smallest = smaller;
            true
        }
        None => false,
    });
    smallest
}

/// Shrinks an image while the library answers it wrongly; none if it does
/// not to begin with.
pub fn smallest_difference(image: &[u8], ours: Library) -> Option<Difference> {
    difference_on(image, ours).map(|difference| shrunk(difference, ours))
}
