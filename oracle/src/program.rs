//! Runs a program such as `vexcheck` on images and compares all that it
//! writes with the lines that document 01 gives.

use std::fmt;
use std::io::{self, Write};
use std::ops::ControlFlow;
use std::process::{Command, ExitStatus, Stdio};

use crate::answer::{answer, lines, PROGRAM_PLACES};
use crate::compare::{each_image, Selection};
use crate::format::Edition;
use crate::specials::specials;
use crate::stack;
use crate::workers::{on_long_stack, THREADS};

/// How a program ended, and what it had written by then.
#[derive(Debug, Clone, PartialEq, Eq)]
pub struct Ran {
    pub written: String,
    pub status: ExitStatus,
}

/// Whatever a program writes, it has to end by itself with status 0.
#[derive(Debug, Clone, Copy, PartialEq, Eq)]
pub enum Fault {
    Signal(ExitStatus),
    Status(ExitStatus),
    /// Not even the header was written.
    Nothing,
}

impl Ran {
    pub fn fault(&self) -> Option<Fault> {
        match self.status.code() {
            None => Some(Fault::Signal(self.status)),
            Some(0) if self.written.is_empty() => Some(Fault::Nothing),
            Some(0) => None,
            Some(_) => Some(Fault::Status(self.status)),
        }
    }
}

impl fmt::Display for Fault {
    fn fmt(&self, out: &mut fmt::Formatter<'_>) -> fmt::Result {
        match self {
            Fault::Signal(status) => write!(out, "the program was ended by {status}"),
            Fault::Status(status) => write!(out, "the program ended with {status}"),
            Fault::Nothing => write!(out, "the program wrote nothing"),
        }
    }
}

/// An image, what the program did with it, and what it had to write.
#[derive(Debug, PartialEq, Eq)]
pub struct Wrong {
    pub image: Vec<u8>,
    pub ran: Ran,
    pub expected: String,
}

impl fmt::Display for Wrong {
    fn fmt(&self, out: &mut fmt::Formatter<'_>) -> fmt::Result {
        if let Some(fault) = self.ran.fault() {
            writeln!(out, "{fault}")?;
        }
        let Self { expected, ran, .. } = self;
        write!(out, "Rust:\n{expected}ours:\n{}", ran.written)
    }
}

#[derive(Debug, Default)]
pub struct Outcome {
    /// Images that the run was to take, the special ones among them.
    pub asked: u64,
    pub images: u64,
    /// Images left out because the check would take too long.
    pub too_long: u64,
    /// Images that ended the program by a signal, as they are known to.
    pub ended: u64,
    pub wrong: Option<Wrong>,
}

/// Runs a program on the special images and on generated ones, up to the
/// first that it answers wrongly. `program` starts it anew for each image.
pub fn run(selection: Selection, program: &(dyn Fn() -> Command + Sync)) -> io::Result<Outcome> {
    on_long_stack(|| {
        let specials = specials();
        let known = known_to_end();
        let mut outcome = Outcome {
            asked: specials.len() as u64 + selection.count,
            ..Outcome::default()
        };
        for image in specials {
            if outcome.run_one(&image, program, &known)?.is_break() {
                return Ok(outcome);
            }
        }
        let mut failed = Ok(());
        for worker in 0..THREADS {
            each_image(selection, worker, |_, image| {
                match outcome.run_one(image, program, &known) {
                    Ok(flow) => flow,
                    Err(error) => {
                        failed = Err(error);
                        ControlFlow::Break(())
                    }
                }
            });
            if outcome.wrong.is_some() || failed.is_err() {
                break;
            }
        }
        failed.map(|()| outcome)
    })
}

impl Outcome {
    /// Whether every image was asked for and answered alike.
    pub fn passed(&self) -> bool {
        self.wrong.is_none() && self.complete()
    }

    pub fn complete(&self) -> bool {
        self.images + self.too_long == self.asked
    }

    fn run_one(
        &mut self,
        image: &[u8],
        program: &dyn Fn() -> Command,
        known: &[Vec<u8>],
    ) -> io::Result<ControlFlow<()>> {
        let Ok(answer) = answer(image, Edition::One, PROGRAM_PLACES) else {
            self.too_long += 1;
            return Ok(ControlFlow::Continue(()));
        };
        self.images += 1;
        let (ran, expected) = (give(&mut program(), image)?, lines(&answer));
        if ran.fault().is_none() && ran.written == expected {
            return Ok(ControlFlow::Continue(()));
        }
        let is_signal = matches!(ran.fault(), Some(Fault::Signal(_)));
        if is_signal && known.iter().any(|one| one == image) {
            self.ended += 1;
            return Ok(ControlFlow::Continue(()));
        }
        self.wrong = Some(Wrong {
            image: image.to_vec(),
            ran,
            expected,
        });
        Ok(ControlFlow::Break(()))
    }
}

/// Images that are recorded as ending the program on its usual stack.
fn known_to_end() -> Vec<Vec<u8>> {
    let cases = stack::program_cases().into_iter();
    let known = cases.filter(|case| case.ends_program());
    known.map(|case| case.image).collect()
}

/// Starts a program, gives it an image and waits for its end.
pub fn give(program: &mut Command, image: &[u8]) -> io::Result<Ran> {
    let program = program.stdin(Stdio::piped()).stdout(Stdio::piped());
    let mut child = program.stderr(Stdio::null()).spawn()?;
    let mut input = child.stdin.take().expect("the input is a pipe");
    // The program may stop reading once the image is too long.
    match input.write_all(image) {
        Err(error) if error.kind() != io::ErrorKind::BrokenPipe => return Err(error),
        _ => drop(input),
    }
    let output = child.wait_with_output()?;
    Ok(Ran {
        written: String::from_utf8_lossy(&output.stdout).into_owned(),
        status: output.status,
    })
}
