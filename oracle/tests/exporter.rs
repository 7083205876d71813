//! The exporter can be taken over into the compiler's crate as it stands: its
//! files name nothing that is not there.

/// The compiler's modules that the exporter uses, and its own four.
const MODULES: [&str; 7] = ["ast", "ir", "span", "export", "model", "draft", "format"];

/// Crates that the compiler depends on.
const CRATES: [&str; 2] = ["std", "smol_str"];

const FILES: [(&str, &str); 4] = [
    ("export.rs", include_str!("../src/export.rs")),
    ("model.rs", include_str!("../src/model.rs")),
    ("draft.rs", include_str!("../src/draft.rs")),
    ("format.rs", include_str!("../src/format.rs")),
];

/// The name that a path goes on with.
fn first_name(path: &str) -> &str {
    let end = path.find(|c: char| !c.is_alphanumeric() && c != '_');
    &path[..end.unwrap_or(path.len())]
}

#[test]
fn exporter_names_only_what_the_compiler_has() {
    for (file, text) in FILES {
        for path in text.split("crate::").skip(1) {
            let name = first_name(path);
            assert!(MODULES.contains(&name), "{file}: crate::{name}");
        }
        for path in text.split("\nuse ").skip(1) {
            let name = first_name(path);
            assert!(
                name == "crate" || CRATES.contains(&name),
                "{file}: use {name}"
            );
        }
    }
}
