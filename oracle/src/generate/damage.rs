//! Images that begin as valid ones and are then cut, changed or added to.

use std::ops::Range;

use super::additions::written;
use super::schemas::{schema, Style};
use super::Emit;
use crate::draft::{Draft, Number};
use crate::format::{write_number, Entry, COUNT_LIMIT};
use crate::random::Random;

const RICH: Style = Style {
    valid: true,
    stored: true,
};

fn draft(random: &mut Random, entry: Entry) -> Draft {
    let schema = schema(random, RICH);
    written(random, schema, entry)
}

/// All beginnings of an image.
pub fn truncated(random: &mut Random, entry: Entry, emit: Emit<'_>) {
    let image = draft(random, entry).bytes;
    for length in 0..image.len().min(400) {
        emit(&image[..length]);
    }
    let near_end = image.len().saturating_sub(50)..image.len();
    near_end.for_each(|length| emit(&image[..length]));
}

/// One byte changed, at every place of an image.
pub fn single_bytes(random: &mut Random, entry: Entry, emit: Emit<'_>) {
    let mut image = draft(random, entry).bytes;
    for at in 0..image.len().min(400) {
        let kept = image[at];
        image[at] = match random.below(7) {
            0 => kept ^ 0x80,
            1 => kept.wrapping_add(1),
            2 => kept.wrapping_sub(1),
            3 => 0xff,
            4 => 0,
            5 => random.below(20) as u8,
            _ => random.bits() as u8,
        };
        emit(&image);
        image[at] = kept;
    }
}

/// A few bytes taken out, put in or put twice.
pub fn spliced(random: &mut Random, entry: Entry, emit: Emit<'_>) {
    let mut image = draft(random, entry).bytes;
    for _ in 0..=random.below(3) {
        let at = random.below(image.len() as u64 + 1) as usize;
        let length = random.below(4).min((image.len() - at) as u64) as usize;
        match random.below(3) {
            0 => {
                image.drain(at..at + length);
            }
            1 => image.insert(at, random.uneven() as u8),
            _ => {
                let twice = image[at..at + length].to_vec();
                image.splice(at..at, twice);
            }
        }
    }
    emit(&image);
}

/// The beginning of one image, then the end of another.
pub fn crossed(random: &mut Random, entry: Entry, emit: Emit<'_>) {
    let (one, other) = (draft(random, entry).bytes, draft(random, entry).bytes);
    let cut = random.below(one.len() as u64 + 1) as usize;
    let from = random.below(other.len() as u64 + 1) as usize;
    emit(&[&one[..cut], &other[from..]].concat());
}

/// Bytes after the last declaration.
pub fn trailing(random: &mut Random, entry: Entry, emit: Emit<'_>) {
    let mut image = draft(random, entry).bytes;
    for _ in 0..=random.below(4) {
        image.push(random.uneven() as u8);
    }
    emit(&image);
}

/// Short images of random bytes, most of them small.
pub fn random_bytes(random: &mut Random, _: Entry, emit: Emit<'_>) {
    let length = random.below(24);
    let byte = |_| match random.below(6) {
        0 => random.bits() as u8,
        1 => 0x80 | random.below(4) as u8,
        _ => random.below(12) as u8,
    };
    let image: Vec<u8> = (0..length).map(byte).collect();
    emit(&image);
}

/// Numbers not in their shortest form, or beyond 64 bits.
pub fn malformed(random: &mut Random, entry: Entry, emit: Emit<'_>) {
    let draft = draft(random, entry);
    for _ in 0..8 {
        let index = random.below(draft.numbers.len() as u64) as usize;
        emit(&malformed_at(random, &draft, index));
    }
}

fn malformed_at(random: &mut Random, draft: &Draft, index: usize) -> Vec<u8> {
    let mut form = draft.bytes[range(draft, index)].to_vec();
    match random.below(6) {
        0 => lengthen(&mut form, 1),
        1 => lengthen(&mut form, 1 + random.below(9) as usize),
        2 => form = [vec![0xff; 9], vec![random.below(4) as u8]].concat(),
        3 => form = vec![0x80; 9 + random.below(3) as usize],
        4 => form = [vec![0x80; 9], vec![random.pick(&[0, 1, 2, 0x80, 0x81])]].concat(),
        _ => form = vec![0x81, 0x80, 0],
    }
    let mut image = replaced(draft, index, &form);
    if random.once_in(3) {
        image.truncate(draft.numbers[index].at + form.len());
    }
    image
}

/// Numbers at their limits, one less and one more, and far beyond.
pub fn out_of_range(random: &mut Random, entry: Entry, emit: Emit<'_>) {
    let draft = draft(random, entry);
    for _ in 0..8 {
        let index = random.below(draft.numbers.len() as u64) as usize;
        emit(&out_of_range_at(random, &draft, index));
    }
}

fn out_of_range_at(random: &mut Random, draft: &Draft, index: usize) -> Vec<u8> {
    let Number { limit, .. } = draft.numbers[index];
    let value = match random.below(8) {
        0 => u64::MAX,
        1 => limit.saturating_sub(1),
        2 | 3 => limit,
        4 => random.uneven(),
        _ => limit.saturating_add(1),
    };
    let mut form = Vec::new();
    write_number(value, &mut form);
    replaced(draft, index, &form)
}

/// Numbers that edition two adds, each cut, malformed or out of its range.
pub fn added(random: &mut Random, entry: Entry, emit: Emit<'_>) {
    let draft = draft(random, entry);
    let mut added: Vec<usize> = (0..draft.numbers.len()).collect();
    added.retain(|&index| draft.numbers[index].added);
    if added.is_empty() {
        return emit(&draft.bytes);
    }
    let mut counts = added.clone();
    counts.retain(|&index| draft.numbers[index].limit == COUNT_LIMIT);
    for _ in 0..8 {
        // Counts are rare among them.
        let index = match random.once_in(3) && !counts.is_empty() {
            true => random.pick(&counts),
            false => random.pick(&added),
        };
        match random.below(3) {
            0 => {
                let Range { start, end } = range(&draft, index);
                let kept = random.below((end - start) as u64) as usize;
                emit(&draft.bytes[..start + kept]);
            }
            1 => emit(&malformed_at(random, &draft, index)),
            _ => emit(&out_of_range_at(random, &draft, index)),
        }
    }
}

fn lengthen(form: &mut Vec<u8>, groups: usize) {
    if let Some(last) = form.last_mut() {
        *last |= 0x80;
    }
    form.extend(vec![0x80; groups - 1]);
    form.push(0);
}

fn range(draft: &Draft, index: usize) -> Range<usize> {
    let end = draft.numbers.get(index + 1).map(|number| number.at);
    draft.numbers[index].at..end.unwrap_or(draft.bytes.len())
}

fn replaced(draft: &Draft, index: usize, form: &[u8]) -> Vec<u8> {
    let range = range(draft, index);
    [&draft.bytes[..range.start], form, &draft.bytes[range.end..]].concat()
}
