//! The program under stress: deep images through a `vexcheck` on the stack that
//! a program is usually given, and on a long one where that is known not to do.

use std::collections::HashSet;
use std::fmt;
use std::io;
use std::ops::ControlFlow;
use std::process::{Command, Stdio};

use crate::answer::{lines, Whole, PATIENT_STEP_LIMIT, PROGRAM_PLACES};
use crate::compare::{each_image, Selection};
use crate::format::Edition;
use crate::program::{give, Fault, Wrong};
use crate::stack::{self, Case, Subject};
use crate::workers::{on_long_stack, THREADS};

/// KiB of the long stack.
const LONG: u64 = 1 << 20;

/// A case that ends the program on its usual stack, and how it was ended.
#[derive(Debug)]
pub struct Known {
    pub name: String,
    pub bytes: usize,
    /// Least KiB of the check, ours and the Rust's.
    pub ours: u64,
    pub rust: u64,
    pub fault: Fault,
}

#[derive(Debug)]
pub enum Failure {
    /// Answered wrongly, or ended where it is not known to be.
    Wrong(Wrong),
    /// Known to be ended, and yet answered: the figures are out of date.
    Answered(String),
}

#[derive(Debug, Default)]
pub struct Outcome {
    /// Different images that the program answered on its usual stack.
    pub answered: u64,
    /// Those that end it there, and are answered on the long stack.
    pub known: Vec<Known>,
    /// This process may not give a program the long stack.
    pub kept_short: bool,
    pub too_long: u64,
    pub failure: Option<Failure>,
}

/// Runs a program on all cases of `stack`, then on images of a selection, each
/// once, up to the first failure.
pub fn run(binary: &str, selection: Selection) -> io::Result<Outcome> {
    let cases = stack::program_cases();
    let raises = on_stack(LONG, "true").status()?.success();
    let mut stress = Stress {
        binary,
        cases: &cases,
        seen: HashSet::new(),
        outcome: Outcome {
            kept_short: !raises,
            ..Outcome::default()
        },
    };
    on_long_stack(|| {
        for case in &cases {
            if stress.run_one(&case.image)?.is_break() {
                return Ok(stress.outcome);
            }
        }
        let mut failed = Ok(());
        for worker in 0..THREADS {
            each_image(selection, worker, |_, image| {
                stress.run_one(image).unwrap_or_else(|error| {
                    failed = Err(error);
                    ControlFlow::Break(())
                })
            });
            if stress.outcome.failure.is_some() || failed.is_err() {
                break;
            }
        }
        failed.map(|()| stress.outcome)
    })
}

struct Stress<'a> {
    binary: &'a str,
    cases: &'a [Case],
    seen: HashSet<Vec<u8>>,
    outcome: Outcome,
}

impl Stress<'_> {
    fn run_one(&mut self, image: &[u8]) -> io::Result<ControlFlow<()>> {
        if !self.seen.insert(image.to_vec()) {
            return Ok(ControlFlow::Continue(()));
        }
        let whole = Whole::within(image, Edition::One, PATIENT_STEP_LIMIT);
        let Ok(answer) = whole.answer(PROGRAM_PLACES) else {
            self.outcome.too_long += 1;
            return Ok(ControlFlow::Continue(()));
        };
        let expected = lines(&answer);
        let is_known = |case: &&Case| case.ends_program() && case.image == image;
        let failure = match self.cases.iter().find(is_known) {
            None => self.answers(image, &expected, stack::PROGRAM)?,
            Some(case) => self.is_ended(case, &expected)?,
        };
        if failure.is_none() {
            return Ok(ControlFlow::Continue(()));
        }
        self.outcome.failure = failure;
        Ok(ControlFlow::Break(()))
    }

    fn answers(&mut self, image: &[u8], expected: &str, kib: u64) -> io::Result<Option<Failure>> {
        let ran = give(&mut on_stack(kib, self.binary), image)?;
        if ran.fault().is_none() && ran.written == expected {
            self.outcome.answered += u64::from(kib == stack::PROGRAM);
            return Ok(None);
        }
        Ok(Some(Failure::Wrong(Wrong {
            image: image.to_vec(),
            ran,
            expected: expected.into(),
        })))
    }

    /// Ended on the usual stack, and right on the long one.
    fn is_ended(&mut self, case: &Case, expected: &str) -> io::Result<Option<Failure>> {
        let ran = give(&mut on_stack(stack::PROGRAM, self.binary), &case.image)?;
        let Some(fault @ Fault::Signal(_)) = ran.fault() else {
            return Ok(Some(Failure::Answered(case.name.clone())));
        };
        self.outcome.known.push(Known {
            name: case.name.clone(),
            bytes: case.image.len(),
            ours: case.recorded(Subject::Check),
            rust: case.recorded(Subject::RustCheck),
            fault,
        });
        match self.outcome.kept_short {
            true => Ok(None),
            false => self.answers(&case.image, expected, LONG),
        }
    }
}

/// A program on a stack of so many KiB, whatever this process has.
fn on_stack(kib: u64, binary: &str) -> Command {
    let mut shell = Command::new("sh");
    let script = "ulimit -c 0; ulimit -s \"$1\" && exec \"$2\"";
    shell.args(["-c", script, "sh", &kib.to_string(), binary]);
    shell.stderr(Stdio::null());
    shell
}

impl Outcome {
    pub fn images(&self) -> u64 {
        self.answered + self.known.len() as u64
    }
}

impl fmt::Display for Known {
    fn fmt(&self, out: &mut fmt::Formatter<'_>) -> fmt::Result {
        let Self {
            name, bytes, fault, ..
        } = self;
        let (ours, rust) = (self.ours, self.rust);
        let usual = stack::PROGRAM;
        write!(
            out,
            "{name} ({bytes} bytes): {fault} on {usual} KiB; \
             the check takes {ours} KiB, the Rust's {rust}"
        )
    }
}
