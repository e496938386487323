//! The functions of the library whose answers can be out of memory, by the sources.

use std::collections::BTreeSet;
use std::fs;
use std::path::Path;

/// What an answer that can be out of memory has, beside the enums with a variant of that name.
const CARRIERS: [&str; 3] = ["AllocError", "Event", "Error"];

fn words(text: &str) -> impl Iterator<Item = &str> {
    text.split(|it: char| !it.is_alphanumeric() && it != '_')
}

/// The paths in `src` and the contents of its files.
fn files(folder: &Path, all: &mut Vec<(String, String)>) {
    for entry in fs::read_dir(folder).expect("a folder of sources") {
        let path = entry.expect("a file").path();
        if path.is_dir() {
            files(&path, all);
        } else {
            let text = fs::read_to_string(&path).expect("a source");
            all.push((path.display().to_string(), text));
        }
    }
}

/// The enums with a variant `OutOfMemory`.
fn faults(text: &str) -> Vec<String> {
    let mut found = Vec::new();
    let mut name = None;
    for line in text.lines() {
        if let Some(rest) = line.strip_prefix("pub enum ") {
            name = words(rest).next();
        } else if line == "}" {
            name = None;
        } else if line.trim() == "OutOfMemory," {
            found.extend(name.map(str::to_owned));
        }
    }
    found
}

/// The type or trait whose functions follow, after a line that begins with a word.
fn owner(line: &str) -> Option<(&str, bool)> {
    let name = |rest| words(rest).find(|it| !it.is_empty());
    if let Some(rest) = line.strip_prefix("pub trait ") {
        return name(rest).map(|it| (it, true));
    }
    let rest = line.strip_prefix("impl")?;
    let rest = match rest.strip_prefix('<') {
        Some(generic) => generic.split_once("> ")?.1,
        None => rest,
    };
    // A method of a trait is known by the trait.
    (!rest.contains(" for ")).then_some(())?;
    name(rest).map(|it| (it, false))
}

/// The functions of a file, and what each returns.
fn functions(text: &str) -> Vec<(String, String)> {
    let mut found = Vec::new();
    let mut of = None;
    let mut lines = text.lines();
    while let Some(line) = lines.next() {
        if line.starts_with("impl") || line.starts_with("pub trait ") {
            of = owner(line);
        }
        if line == "}" {
            of = None;
        }
        let is_trait = of.is_some_and(|it| it.1);
        let inner = line.strip_prefix("    ").filter(|_| of.is_some());
        let start = match inner {
            Some(inner) if is_trait => inner.strip_prefix("fn "),
            Some(inner) => inner.strip_prefix("pub fn "),
            None => line.strip_prefix("pub fn "),
        };
        let Some(start) = start else { continue };
        let mut head = start.to_owned();
        while !head.contains(['{', ';']) {
            head.push_str(lines.next().expect("the end of a head"));
        }
        let name = words(&head).next().expect("a name");
        let full = of.map_or(name.to_owned(), |it| format!("{}::{name}", it.0));
        let returned = head.split_once("->").map_or("", |it| it.1);
        found.push((full, returned.to_owned()));
    }
    found
}

/// `Type::function`, `Trait::function` or `function` of all that is documented.
pub fn that_can_run_out() -> BTreeSet<String> {
    let folder = Path::new(env!("CARGO_MANIFEST_DIR")).join("src");
    let mut all = Vec::new();
    files(&folder, &mut all);
    let text_of = |end: &str| {
        all.iter()
            .find(|it| it.0.ends_with(end))
            .expect("it")
            .1
            .as_str()
    };
    // A name is documented if `lib.rs` or `parts.rs` exports it, or if it is of the module `sdp`.
    let exported = [text_of("src/lib.rs"), text_of("src/parts.rs")].concat();
    let documented: BTreeSet<_> = words(&exported).collect();
    let mut carriers: BTreeSet<_> = all.iter().flat_map(|it| faults(&it.1)).collect();
    carriers.extend(CARRIERS.map(str::to_owned));
    let mut found = BTreeSet::new();
    for (path, text) in &all {
        for (name, returned) in functions(text) {
            let first = name.split("::").next().expect("a name");
            // A run is no call of a user, and one of its steps has the name of a module.
            let is_known = (documented.contains(first) && !path.contains("src/schedule"))
                || path.contains("src/sdp");
            if is_known && words(&returned).any(|it| carriers.contains(it)) {
                found.insert(name);
            }
        }
    }
    found
}
