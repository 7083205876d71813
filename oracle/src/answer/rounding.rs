//! What the head board's rounding of fields to whole bytes met in one image.

use super::limit::Part;
use super::sizes::Size;
use crate::format::SIZE_LIMIT;

/// Bits of a byte, and so what a size can have over whole bytes.
pub const BYTE: usize = 8;

/// The ends that are rounded, by the kind of size that has them.
pub const ENDS: [&str; 4] = ["Fixed", "smallest", "largest", "from"];

/// Where fields are.
pub const OWNERS: [&str; 2] = ["message", "variant"];

/// How rounding passes the limit: at the smallest, at the largest alone, and
/// there though the total before it has none.
pub const PASSING: [&str; 3] = [
    "at the smallest",
    "at the largest alone",
    "at the largest alone, in a total without one",
];

#[derive(Debug, Clone, Copy, Default, PartialEq, Eq)]
pub struct Rounding {
    /// By owner and end: which bits over whole bytes there were.
    pub over: [[[bool; BYTE]; ENDS.len()]; OWNERS.len()],
    /// Which way the limit was passed by rounding, if it was.
    pub passing: [bool; PASSING.len()],
}

impl Rounding {
    /// Notes a field of a message or of a union's variant that is about to be
    /// rounded, and what was added up before it.
    pub fn note(&mut self, owner: Part, field: Size, total: Size) {
        let over = &mut self.over[usize::from(owner == Part::Union)];
        let mut mark = |end: usize, bits: u128| over[end][bits as usize % BYTE] = true;
        match field.most {
            Some(bits) if field.fixed => mark(0, bits),
            Some(most) => {
                mark(1, field.least);
                mark(2, most);
            }
            None => mark(3, field.least),
        }
        let passes = |bits: u128| bits.next_multiple_of(BYTE as u128) > u128::from(SIZE_LIMIT);
        let at_least = passes(field.least);
        let at_most = !at_least && field.most.is_some_and(passes);
        self.passing = [at_least, at_most, at_most && total.most.is_none()];
    }
}
