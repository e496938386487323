//! What the documentation shows: each name once, the names of most programs at the root, and no more than a reader can survey.

use std::collections::BTreeMap;

/// The names that a file re-exports for its documentation: those of `pub use` without `#[doc(hidden)]` before it.
fn documented(source: &str) -> Vec<String> {
    let mut names = Vec::new();
    let mut hidden = false;
    let mut statement = String::new();
    for line in source.lines().map(str::trim) {
        if statement.is_empty() && line.starts_with("#[doc(hidden)]") {
            hidden = true;
        } else if !statement.is_empty() || line.starts_with("pub use ") {
            statement.push_str(line);
            if line.ends_with(';') {
                if !hidden {
                    names.extend(names_of(&statement));
                }
                statement.clear();
                hidden = false;
            }
        } else if !line.starts_with("#[") && !line.starts_with("//") {
            hidden = false;
        }
    }
    names
}

/// The names of a statement: `pub use crate::rtp::{Element, Elements};` or `pub use error::PacketError;`.
fn names_of(statement: &str) -> Vec<String> {
    let path = statement
        .trim_start_matches("pub use ")
        .trim_end_matches(';');
    let list = match path.split_once('{') {
        Some((_, list)) => list.trim_end_matches('}'),
        None => path.rsplit("::").next().expect("a path"),
    };
    list.split(',')
        .map(str::trim)
        .filter(|name| !name.is_empty())
        .map(str::to_owned)
        .collect()
}

#[test]
fn each_name_is_documented_once() {
    let root = documented(include_str!("../src/lib.rs"));
    let parts = documented(include_str!("../src/parts.rs"));
    assert!(root.contains(&"Session".to_owned()) && parts.contains(&"WaitLimits".to_owned()));
    assert!(
        (40..=46).contains(&root.len()),
        "{} names at the root",
        root.len()
    );
    assert!(
        (150..=280).contains(&parts.len()),
        "{} names in parts",
        parts.len()
    );
    let mut times = BTreeMap::new();
    for name in root.iter().chain(&parts) {
        assert_ne!(name, "*", "a list of names");
        *times.entry(name).or_insert(0) += 1;
    }
    let twice: Vec<_> = times.iter().filter(|(_, times)| **times > 1).collect();
    assert!(twice.is_empty(), "{twice:?}");
}

#[test]
fn inner_types_are_not_documented() {
    let parts = documented(include_str!("../src/parts.rs"));
    for name in [
        "PackedMeta",
        "KeptPacket",
        "Incoming",
        "Left",
        "PackedHeader",
        "NotedTime",
        "UnitGate",
        "Placed",
    ] {
        assert!(!parts.contains(&name.to_owned()), "{name}");
    }
    let lib = include_str!("../src/lib.rs");
    for module in ["pub mod schedule;", "pub mod queue;", "pub mod whole;"] {
        let shown = format!("\n{module}");
        assert!(
            !lib.contains(&shown) || lib.contains(&format!("#[doc(hidden)]{shown}")),
            "{module}"
        );
    }
}

/// The texts of items, in the file or the files of the folder: each with its file.
fn item_texts(path: &std::path::Path, found: &mut Vec<(String, String)>) {
    if path.is_dir() {
        for entry in std::fs::read_dir(path).expect("a folder") {
            item_texts(&entry.expect("an entry").path(), found);
        }
        return;
    }
    let source = std::fs::read_to_string(path).expect("a file");
    let texts = source
        .lines()
        .map(str::trim)
        .filter(|line| line.starts_with("/// "));
    let file = path.display().to_string();
    found.extend(texts.map(|line| (file.clone(), line.to_owned())));
}

#[test]
fn no_text_names_a_crate_of_the_sources() {
    let mut texts = Vec::new();
    item_texts(
        std::path::Path::new(concat!(env!("CARGO_MANIFEST_DIR"), "/src")),
        &mut texts,
    );
    assert!(texts.len() > 1_000, "{} lines", texts.len());
    let named: Vec<_> = texts
        .iter()
        .filter(|(_, line)| line.contains("codec_payload_") || line.contains("docs/"))
        .collect();
    assert!(named.is_empty(), "{named:#?}");
}
