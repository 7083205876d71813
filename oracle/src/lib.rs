//! The Rust type check of Vexil, run on schema images, beside the ported one.
//!
//! `import` reads an image into the compiler's `CompiledSchema`, `export`
//! writes one, `answer` gives the whole answer for an image, `generate` makes
//! images, and the commands of `main.rs` compare, record and measure.

// The upstream files say `smol_str::SmolStr`; this crate is that name to itself.
extern crate self as smol_str;
pub use small_string::SmolStr;

#[path = "../upstream/ast/mod.rs"]
#[rustfmt::skip]
pub mod ast;
#[path = "../upstream/diagnostic.rs"]
#[rustfmt::skip]
pub mod diagnostic;
#[path = "../upstream/ir/mod.rs"]
#[rustfmt::skip]
#[allow(dead_code)]
pub mod ir;
#[path = "../upstream/span.rs"]
#[rustfmt::skip]
pub mod span;
#[path = "../upstream/typeck.rs"]
#[rustfmt::skip]
pub mod typeck;

pub mod answer;
pub mod bench;
pub mod compare;
pub mod draft;
pub mod example;
pub mod export;
pub mod format;
pub mod generate;
pub mod import;
pub mod lengths;
pub mod library;
pub mod model;
#[cfg(feature = "ours")]
pub mod ours;
pub mod program;
pub mod random;
pub mod record;
pub mod shrink;
pub mod small_string;
pub mod specials;
pub mod stack;
pub mod stress;
pub mod survey;
pub mod tally;
pub mod workers;
