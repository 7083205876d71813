//! Pages name only what is there: files, functions, must-fail edits and definitions; and `docs/THEOREM.md` lists
//! every file of definitions that the public contract brings in, and no other.

use std::collections::BTreeSet;
use std::fs;
use std::path::{Path, PathBuf};

fn root() -> PathBuf {
    Path::new(env!("CARGO_MANIFEST_DIR")).join("..")
}

fn text(path: impl AsRef<Path>) -> String {
    let path = root().join(path);
    fs::read_to_string(&path).unwrap_or_else(|error| panic!("{}: {error}", path.display()))
}

/// All files below a folder, what is built left out.
fn files(folder: &Path, found: &mut Vec<PathBuf>) {
    for entry in fs::read_dir(folder).expect("a folder").flatten() {
        let path = entry.path();
        let name = entry.file_name();
        if name == "target" || name == ".git" {
            continue;
        }
        if path.is_dir() {
            files(&path, found);
        } else {
            found.push(path);
        }
    }
}

fn all_files() -> Vec<PathBuf> {
    let mut found = Vec::new();
    files(&root(), &mut found);
    found
}

/// These pages tell of what is gone too.
const OF_OLD: [&str; 4] = ["CHANGES.md", "PORT.md", "DESIGN-PASS.md", "LOOK-BACK.md"];

/// The pages that tell of what is there.
fn pages() -> Vec<(String, String)> {
    let mut pages = vec!["README.md".to_string(), "oracle/README.md".to_string()];
    for entry in fs::read_dir(root().join("docs")).expect("docs").flatten() {
        let name = entry.file_name().into_string().expect("a plain name");
        if name.ends_with(".md") && !OF_OLD.contains(&name.as_str()) {
            pages.push(format!("docs/{name}"));
        }
    }
    pages.sort();
    pages
        .into_iter()
        .map(|page| (page.clone(), text(page)))
        .collect()
}

/// What stands between backticks on one line.
fn quoted(line: &str) -> Vec<&str> {
    line.split('`').skip(1).step_by(2).collect()
}

fn is_word(word: &str) -> bool {
    !word.is_empty()
        && word
            .chars()
            .all(|c| c.is_alphanumeric() || "_-′'".contains(c))
}

const ENDINGS: [&str; 9] = [
    ".antt", ".rt", ".rs", ".md", ".edit", ".image", ".h", ".c", ".txt",
];

#[test]
fn files_are_there() {
    let names: BTreeSet<String> = all_files()
        .iter()
        .filter_map(|path| Some(path.file_name()?.to_str()?.to_string()))
        .collect();
    for (page, content) in pages() {
        for line in content.lines() {
            for word in quoted(line) {
                let plain = word
                    .chars()
                    .all(|c| c.is_alphanumeric() || "_-./+".contains(c));
                if !plain || !ENDINGS.iter().any(|ending| word.ends_with(ending)) {
                    continue;
                }
                let there = if word.contains('/') {
                    ["", "crates", "docs", "oracle", "oracle/src"]
                        .iter()
                        .any(|base| root().join(base).join(word).exists())
                } else {
                    names.contains(word)
                };
                assert!(there, "{page} names `{word}`, which is not there: {line}");
            }
        }
    }
}

/// The sources of a crate, or none if there is no such crate.
fn sources(name: &str) -> Option<String> {
    let folder = root().join("crates").join(name).join("src");
    let mut all = String::new();
    for entry in fs::read_dir(folder).ok()?.flatten() {
        all += &fs::read_to_string(entry.path()).ok()?;
    }
    Some(all)
}

#[test]
fn functions_are_there() {
    for (page, content) in pages() {
        for word in content.lines().flat_map(quoted) {
            let path = word.split(['(', '<', '!']).next().unwrap_or(word);
            let Some((name, item)) = path.split_once("::") else {
                continue;
            };
            let Some(sources) = sources(name).filter(|_| is_word(item)) else {
                continue;
            };
            let there = ["fn", "struct", "enum"]
                .iter()
                .any(|kind| sources.contains(&format!("{kind} {item}")));
            assert!(there, "{page} names `{word}`, which is not there");
        }
    }
}

/// Behind 'must-fail', up to the end of the cell or sentence: `CRATE/EDIT`, and `EDIT` of the crate named last.
#[test]
fn edits_are_there() {
    let mut met = 0;
    for (page, content) in pages() {
        for line in content.lines() {
            for part in line.split("ust-fail ").skip(1) {
                let part = part.split(['|', ';', ':', '.']).next().unwrap_or(part);
                let mut folder = String::new();
                for word in quoted(part) {
                    let edit = match word.split_once('/') {
                        Some((name, edit)) => {
                            folder = name.to_string();
                            edit
                        }
                        None => word,
                    };
                    let edits = root().join("crates").join(&folder).join("must-fail");
                    let there = match edit {
                        "*" => edits.is_dir(),
                        _ => edits.join(format!("{edit}.edit")).exists(),
                    };
                    assert!(there, "{page}: no edit `{folder}/{edit}`: {line}");
                    met += 1;
                }
            }
        }
    }
    assert!(met > 100, "only {met} edits were met on the pages");
}

#[test]
fn names_are_there() {
    let mut all = String::new();
    for path in all_files() {
        if ["antt", "rt", "rs", "h", "c"]
            .iter()
            .any(|&kind| path.extension() == Some(kind.as_ref()))
        {
            all += &fs::read_to_string(path).expect("a source");
        }
    }
    all += &text(".ci/run");
    let known: BTreeSet<&str> = all
        .split(|c: char| !(c.is_alphanumeric() || "_-′'".contains(c)))
        .collect();
    for page in ["docs/DEMANDS.md", "docs/THEOREM.md"] {
        let content = text(page);
        for line in content.lines().filter(|line| !line.starts_with("    ")) {
            for word in quoted(line).into_iter().filter(|word| is_word(word)) {
                let plain = known.contains(word) || root().join("crates").join(word).exists();
                let family = all.contains(&format!("\"{word}\""));
                let edit = line.contains("ust-fail");
                assert!(
                    plain || family || edit,
                    "{page} names `{word}`, which no source has: {line}"
                );
            }
        }
    }
}

/// The file of definitions behind a line that brings names in.
fn brought(line: &str) -> Option<String> {
    let path = line.split("use Rattle.").nth(1)?;
    let (owner, rest) = path.split_once(".specs.")?;
    let module = rest.split(['.', ' ']).next()?;
    let file = format!("{owner}/specs/{module}.antt");
    root().join("crates").join(&file).exists().then_some(file)
}

#[test]
fn theorem_lists_what_is_to_be_believed() {
    let mut believed = BTreeSet::new();
    let mut left = vec!["typeck/specs/Check.antt".to_string()];
    while let Some(file) = left.pop() {
        if believed.insert(file.clone()) {
            let content = text(Path::new("crates").join(&file));
            left.extend(content.lines().filter_map(brought));
        }
    }
    let page = text("docs/THEOREM.md");
    let listed: BTreeSet<String> = page
        .split("## The other entries")
        .next()
        .unwrap_or_default()
        .lines()
        .flat_map(quoted)
        .filter(|word| word.contains("/specs/") && word.ends_with(".antt"))
        .map(str::to_string)
        .collect();
    assert_eq!(listed, believed);
}
