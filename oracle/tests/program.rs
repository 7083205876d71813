//! Running a program on images, and the records of what it has to write.

use std::path::Path;
use std::process::Command;
use std::sync::atomic::{AtomicU64, Ordering};

use oracle::answer::{answer, lines, PROGRAM_PLACES};
use oracle::compare::Selection;
use oracle::format::{Edition, Entry};
use oracle::generate::findings::many_findings;
use oracle::generate::{family_named, Families};
use oracle::program::{run, Fault};
use oracle::record::record_lines;
use oracle::specials::specials;
use oracle::{stack, stress};

const SELECTION: Selection = Selection {
    count: 200,
    seed: 2,
    families: Families::All,
    entry: Entry::ONE,
};

fn oracle(command: &str) -> Command {
    let mut program = Command::new(env!("CARGO_BIN_EXE_oracle"));
    program.arg(command);
    program
}

#[test]
fn the_oracle_writes_its_own_lines() {
    let outcome = run(SELECTION, &|| oracle("answer")).expect("it runs");
    assert_eq!(outcome.wrong, None);
    let images = outcome.images + outcome.too_long;
    assert_eq!(images, SELECTION.count + specials().len() as u64);
    assert!(outcome.passed());
}

#[test]
fn another_output_is_seen() {
    let outcome = run(SELECTION, &|| oracle("families")).expect("it runs");
    let wrong = outcome.wrong.expect("it writes something else");
    assert!(wrong.image.is_empty());
    assert_eq!(wrong.expected, "vexil-typeck 1\nrefused 2 0\n");
}

/// A program that a shell runs.
fn shell(script: &str) -> Command {
    let mut program = Command::new("sh");
    program.args(["-c", script]);
    program
}

#[test]
fn a_program_that_is_ended_is_seen() {
    // Even where its lines are right.
    let lines = "printf 'vexil-typeck 1\\nrefused 2 0\\n'";
    let scripts = [
        (format!("{lines}; kill -SEGV $$"), "was ended by signal: 11"),
        (format!("{lines}; exit 3"), "ended with exit status: 3"),
        ("cat > /dev/null".into(), "wrote nothing"),
    ];
    for (script, told) in &scripts {
        let outcome = run(SELECTION, &|| shell(script)).expect("it runs");
        assert_eq!(outcome.images, 1, "{script}");
        let wrong = outcome.wrong.expect("it does not end by itself");
        assert!(wrong.ran.fault().is_some(), "{script}");
        let text = wrong.to_string();
        assert!(text.starts_with(&format!("the program {told}")), "{text}");
    }
}

/// A script that stands for `vexcheck`, in a file of this name.
fn script(name: &str, text: &str) -> String {
    let file = Path::new(env!("CARGO_TARGET_TMPDIR")).join(name);
    std::fs::write(&file, format!("#!/bin/sh\n{text}\n")).expect("a file is written");
    let run = std::os::unix::fs::PermissionsExt::from_mode(0o700);
    std::fs::set_permissions(&file, run).expect("it is made to run");
    file.to_str().expect("a plain name").into()
}

#[test]
fn a_signal_is_known_or_a_failure() {
    let deep = Selection {
        count: 2,
        seed: 5,
        families: Families::One(family_named("deep", Entry::ONE).expect("a family")),
        entry: Entry::ONE,
    };
    let answers = format!("exec {} answer", env!("CARGO_BIN_EXE_oracle"));

    let never = script("never", &answers);
    let outcome = stress::run(&never, deep).expect("it runs");
    let told = outcome.failure.expect("three are recorded as ending it");
    assert!(matches!(told, stress::Failure::Answered(_)), "{told:?}");

    let always = script("always", "kill -SEGV $$");
    let outcome = stress::run(&always, deep).expect("it runs");
    let Some(stress::Failure::Wrong(wrong)) = outcome.failure else {
        panic!("{outcome:?}");
    };
    assert!(matches!(wrong.ran.fault(), Some(Fault::Signal(_))));

    // Only where it is known, and only on the short stack.
    let some = "cat > $0.image; bytes=$(wc -c < $0.image)\n\
                [ $bytes -ge 18805 ] && [ $bytes -le 18819 ] && [ $(ulimit -s) = 8192 ] && kill -SEGV $$\n";
    let as_known = script("known", &format!("{some}{answers} < $0.image"));
    let outcome = stress::run(&as_known, deep).expect("it runs");
    assert!(outcome.failure.is_none(), "{outcome:?}");
    assert_eq!(outcome.known.len(), 3);
    for known in &outcome.known {
        assert!(known.rust < stack::PROGRAM && stack::PROGRAM < known.ours);
    }
}

#[test]
fn findings_are_as_many_as_said() {
    for kind in 0..3 {
        let text = |findings| {
            let image = many_findings(findings, kind).bytes(Edition::One);
            lines(&answer(&image, Edition::One, PROGRAM_PLACES).expect("a short check"))
        };
        assert!(text(1_000).ends_with("\nend 1000\n"), "kind {kind}");
        assert_eq!(text(1_001), "vexil-typeck 1\nrefused 12 0\n");
    }
}

/// Reads records back: length, image, length, lines.
#[test]
fn records_hold_images_and_lines() {
    let mut file = Vec::new();
    record_lines(SELECTION, &mut file).expect("a Vec takes all");
    let mut rest = &file[..];
    let mut part = || -> Option<Vec<u8>> {
        let (length, after) = rest.split_first_chunk::<4>()?;
        let (bytes, after) = after.split_at(u32::from_le_bytes(*length) as usize);
        rest = after;
        Some(bytes.to_vec())
    };
    let mut images = 0;
    while let Some(image) = part() {
        let text = part().expect("lines after each image");
        let expected = lines(&answer(&image, Edition::One, PROGRAM_PLACES).expect("a short check"));
        assert_eq!(String::from_utf8(text), Ok(expected));
        images += 1;
    }
    assert!(images > 150, "{images}");
    assert!(file.len() < 600_000, "{}", file.len());
}

/// A program that errs on one run and on no other is told.
#[test]
fn one_wrong_output_is_seen() {
    let runs = AtomicU64::new(0);
    let program = || match runs.fetch_add(1, Ordering::Relaxed) {
        150 => oracle("families"),
        _ => oracle("answer"),
    };
    let outcome = run(SELECTION, &program).expect("it runs");
    assert!(outcome.wrong.is_some());
    assert!(!outcome.passed());
}
