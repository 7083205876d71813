//! Whole answers over generated images, without the ported library: shows
//! which refusals the families reach, and holds the sizes worked out here
//! against the upstream ones.

use std::ops::ControlFlow;
use std::panic::{catch_unwind, AssertUnwindSafe};

use crate::answer::{Answer, Places, Whole, PROGRAM_PLACES};
use crate::compare::{each_image, Selection};
use crate::random::Random;
use crate::tally::{Tally, TOO_LONG};
use crate::workers::in_parallel;

/// Counts of answers, findings and trait fields, and an image whose check
/// failed.
#[derive(Debug, Default)]
pub struct Survey {
    pub tally: Tally,
    pub failed: Option<Vec<u8>>,
}

pub fn survey(selection: Selection) -> Survey {
    let parts = in_parallel(|worker| part(selection, worker));
    let mut all = Survey::default();
    for part in parts {
        all.tally.add(&part.tally);
        all.failed = all.failed.or(part.failed);
    }
    all
}

fn part(selection: Selection, worker: u64) -> Survey {
    let mut survey = Survey::default();
    let mut random = Random::new(!selection.seed, worker);
    each_image(selection, worker, |family, image| {
        let places = places(&mut random);
        let worked = || Whole::of(image, selection.entry);
        let Ok(whole) = catch_unwind(AssertUnwindSafe(worked)) else {
            survey.failed = Some(image.to_vec());
            return ControlFlow::Break(());
        };
        survey.tally.look_into(family, &whole);
        survey.tally.look_across(image, selection.entry, &whole);
        let column = match &whole.answer(places) {
            Ok(Answer::Refused { number, .. }) => *number as usize,
            Ok(Answer::Accepted { .. }) => 0,
            Err(_) => TOO_LONG,
        };
        survey.tally.count(family, column);
        ControlFlow::Continue(())
    });
    survey
}

/// Mostly those of the program, at times few.
fn places(random: &mut Random) -> Places {
    let mut places = PROGRAM_PLACES;
    if random.once_in(8) {
        places.sizes = random.below(40);
    }
    if random.once_in(8) {
        places.findings = random.below(40);
    }
    places
}
