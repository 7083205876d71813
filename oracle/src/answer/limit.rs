//! The first step that passes the limit of sizes: what it is, which document
//! 02 tells apart by number, and what it stands in.

use super::steps::TooLong;

/// What makes a size of sizes.
#[derive(Debug, Clone, Copy, PartialEq, Eq)]
pub enum Operation {
    Sum,
    /// Of a fixed array, vector, quaternion or matrix, or of a limit.
    Product,
}

impl Operation {
    /// The number of the refusal.
    pub fn number(self) -> u64 {
        match self {
            Operation::Sum => 11,
            Operation::Product => 14,
        }
    }
}

/// What a step can stand in; a vector is also a quaternion or a matrix.
#[derive(Debug, Clone, Copy, PartialEq, Eq)]
pub enum Part {
    Message,
    Union,
    Result,
    Optional,
    FixedArray,
    Vector,
    /// A field whose elements have a limit.
    Limited,
}

impl Part {
    pub const ALL: [Part; 7] = [
        Part::Message,
        Part::Union,
        Part::Result,
        Part::Optional,
        Part::FixedArray,
        Part::Vector,
        Part::Limited,
    ];

    pub fn name(self) -> &'static str {
        match self {
            Part::Message => "message",
            Part::Union => "union",
            Part::Result => "Result",
            Part::Optional => "Optional",
            Part::FixedArray => "fixed array",
            Part::Vector => "vector",
            Part::Limited => "limited field",
        }
    }
}

/// Steps of a field whose elements have a limit.
#[derive(Debug, Clone, Copy, PartialEq, Eq)]
pub enum Step {
    /// Inside an element, or a key, or a value beside a key that has a largest.
    Inside,
    /// Inside a value whose key has no largest.
    Value,
    /// The largest key and the largest value.
    Entry,
    /// The limit times the largest.
    Product,
    /// The groups of the count, and that product.
    Sum,
}

/// The operation of the first step, and the parts around it, at any depth and
/// its own one among them.
#[derive(Debug, Clone, Copy, PartialEq, Eq)]
pub struct PassedLimit {
    pub operation: Operation,
    pub inside: [bool; Part::ALL.len()],
    /// What it is to the innermost field around it that has limited elements.
    pub step: Option<Step>,
}

/// Why the size of a part could not be worked out.
pub enum Halt {
    Limit(PassedLimit),
    TooLong,
}

pub type Worked<T> = Result<T, Halt>;

impl Halt {
    /// The same, told from around.
    pub fn inside(mut self, part: Part) -> Self {
        if let Halt::Limit(passed) = &mut self {
            passed.inside[part as usize] = true;
        }
        self
    }

    /// The same, told by a field whose elements have a limit.
    pub fn at(mut self, step: Step) -> Self {
        if let Halt::Limit(passed) = &mut self {
            passed.step.get_or_insert(step);
        }
        self
    }
}

impl From<Operation> for Halt {
    fn from(operation: Operation) -> Self {
        Halt::Limit(PassedLimit {
            operation,
            inside: [false; Part::ALL.len()],
            step: None,
        })
    }
}

impl From<TooLong> for Halt {
    fn from(_: TooLong) -> Self {
        Halt::TooLong
    }
}
