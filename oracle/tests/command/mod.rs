//! The oracle run as a program.

use std::process::Command;

/// What the oracle writes, and what it says if it fails.
pub fn oracle(arguments: &[&str]) -> Result<String, String> {
    let mut program = Command::new(env!("CARGO_BIN_EXE_oracle"));
    let output = program.args(arguments).output().expect("it runs");
    let text = |bytes| String::from_utf8(bytes).expect("plain text");
    match output.status.success() {
        true => Ok(text(output.stdout)),
        false => Err(text(output.stderr)),
    }
}
