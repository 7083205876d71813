//! Lists of images of edition one and their answers, for replay elsewhere. A file is a
//! sequence of records up to its end: no header, no count, nothing between
//! records or their parts. All numbers are little-endian.
//!
//! A record of reading is
//!
//! * the image's length (u32) and its bytes,
//! * the answer's number (u64): 0 accepted, else the refusal,
//! * its value (u64): the slot count, else the place,
//! * if the number is 0, the start of each slot (u32 each).
//!
//! A record of the whole check, as `record-lines` writes it, is
//!
//! * the image's length (u32), which may be 0, and its bytes,
//! * the length (u32) and the bytes of all that `vexcheck` writes for it, from
//!   its first line on, each line with its line feed: `vexil-typeck 1`, then
//!   either `refused` or the lines of sizes, findings and `end`.
//!
//! First come the special images, whose image may pass the limit of 65,536
//! bytes by one and whose lines may hold 1,000 findings; in each record after
//! them, image and lines have at most 2,000 bytes each.

use std::fs;
use std::io::{self, Write};
use std::ops::ControlFlow;
use std::path::Path;

use crate::answer::{answer, lines, PROGRAM_PLACES};
use crate::compare::{each_image, Selection};
use crate::format::Edition;
use crate::import::import;
use crate::specials::specials;
use crate::workers::{on_long_stack, THREADS};

/// Longest generated image that is recorded with its lines, and most bytes of
/// these, so that the file stays small.
const LONGEST: usize = 2_000;

/// Writes the images of a selection and how they are read.
pub fn record(selection: Selection, out: &mut dyn Write) -> io::Result<()> {
    each(selection, &mut |image| write_record(image, out))
}

/// Writes the special images and those of a selection, each with its lines.
/// Images that are long or take long are left out.
pub fn record_lines(selection: Selection, out: &mut (dyn Write + Send)) -> io::Result<()> {
    on_long_stack(|| {
        for image in specials() {
            write_lines(&image, usize::MAX, out)?;
        }
        each(selection, &mut |image| write_lines(image, LONGEST, out))
    })
}

/// Writes the images of a selection that are not long, a numbered file each.
pub fn write_images(selection: Selection, folder: &Path) -> io::Result<()> {
    let mut number = 0;
    each(selection, &mut |image| {
        number += 1;
        match image.len() <= LONGEST {
            true => fs::write(folder.join(number.to_string()), image),
            false => Ok(()),
        }
    })
}

/// Writes each image of a selection; an error if there were more or fewer.
fn each(selection: Selection, write: &mut dyn FnMut(&[u8]) -> io::Result<()>) -> io::Result<()> {
    let mut images = 0;
    for worker in 0..THREADS {
        let mut result = Ok(());
        each_image(selection, worker, |_, image| {
            images += 1;
            result = write(image);
            match result {
                Ok(()) => ControlFlow::Continue(()),
                Err(_) => ControlFlow::Break(()),
            }
        });
        result?;
    }
    match images == selection.count {
        true => Ok(()),
        false => Err(io::Error::other(format!(
            "{images} images of {}",
            selection.count
        ))),
    }
}

fn write_lines(image: &[u8], longest: usize, out: &mut dyn Write) -> io::Result<()> {
    if image.len() > longest {
        return Ok(());
    }
    match answer(image, Edition::One, PROGRAM_PLACES).map(|answer| lines(&answer)) {
        Ok(text) if text.len() <= longest => {
            write_counted(image, out)?;
            write_counted(text.as_bytes(), out)
        }
        _ => Ok(()),
    }
}

fn write_counted(bytes: &[u8], out: &mut dyn Write) -> io::Result<()> {
    out.write_all(&(bytes.len() as u32).to_le_bytes())?;
    out.write_all(bytes)
}

fn write_record(image: &[u8], out: &mut dyn Write) -> io::Result<()> {
    let (number, value, starts) = match import(image, Edition::One) {
        Ok(imported) => (0, imported.starts.len() as u64, imported.starts),
        Err(refusal) => (refusal.number, refusal.place, Vec::new()),
    };
    write_counted(image, out)?;
    out.write_all(&number.to_le_bytes())?;
    out.write_all(&value.to_le_bytes())?;
    for start in starts {
        out.write_all(&start.to_le_bytes())?;
    }
    Ok(())
}
