//! Library, reference and baselines share their words and limits alone, so that one can be held
//! against another.

use crate::finding::{expect_none, messages, Finding};
use crate::source::{files, lines, read, Source};

/// The packages and all that each may depend on.
const PACKAGES: [(&str, &[&str]); 4] = [
    ("types", &[]),
    ("cesca", &["cesca-types"]),
    ("reference", &["cesca-types"]),
    ("baselines", &["cesca-types"]),
];

/// The crates that the library must not know.
const OTHERS: [&str; 2] = ["reference", "baselines"];

/// The packages that a manifest names in a table of dependencies, each with its line.
fn dependencies(manifest: &str) -> Vec<(usize, &str)> {
    let mut table = "";
    let mut found = Vec::new();
    for (at, line) in lines(manifest, "#") {
        if let Some(header) = line.trim().strip_prefix('[') {
            table = header.trim_matches(['[', ']']);
            let named = table.rsplit_once("dependencies.").map(|(_, name)| (at, name));
            found.extend(named);
        } else if let Some((key, _)) = line.split_once('=') {
            let name = key.split('.').next().unwrap_or_default().trim();
            found.extend(table.ends_with("dependencies").then_some((at, name)));
        }
    }
    found
}

/// What a manifest depends on beside or instead of just these packages.
fn manifest_findings(source: &Source, allowed: &[&str]) -> Vec<Finding> {
    let found = dependencies(&source.text);
    let others = found.iter().filter(|(_, name)| !allowed.contains(name));
    let others = others.map(|(at, name)| (*at, format!("depends on {name}")));
    let missing = allowed.iter().filter(|name| !found.iter().any(|(_, found)| found == *name));
    let missing = missing.map(|name| (1, format!("doesn't depend on {name}")));
    others.chain(missing).map(|(at, what)| Finding::new(&source.file, at, what)).collect()
}

/// The lines of a source that name one of the other crates.
fn source_findings(source: &Source) -> Vec<Finding> {
    let found = lines(&source.text, "//").filter(|(_, line)| names_other(line));
    found.map(|(at, line)| Finding::new(&source.file, at, line.trim())).collect()
}

/// Whether a line names another crate: before `::`, or behind `use` or `crate`.
fn names_other(line: &str) -> bool {
    let of_name = |letter: char| letter.is_alphanumeric() || letter == '_';
    OTHERS.into_iter().flat_map(|other| line.match_indices(other)).any(|(at, other)| {
        let (before, after) = (&line[..at], &line[at + other.len()..]);
        let whole = !before.ends_with(of_name) && !after.starts_with(of_name);
        let behind = before.trim_end().rsplit(|letter| !of_name(letter)).next();
        let imported = behind.is_some_and(|word| ["use", "crate"].contains(&word));
        whole && (after.trim_start().starts_with("::") || imported)
    })
}

#[test]
fn independence() {
    let manifests = PACKAGES.iter().flat_map(|(package, allowed)| {
        manifest_findings(&read(&format!("host/{package}/Cargo.toml")), allowed)
    });
    let sources = files("host/cesca", ".rs");
    assert!(sources.len() >= 5, "only {} sources are seen", sources.len());
    expect_none(manifests.chain(sources.iter().flat_map(source_findings)).collect());
}

#[test]
fn a_dependency_too_many_or_too_few_is_found() {
    let found = |text: &str| {
        let source = Source::new("Cargo.toml", text);
        messages(manifest_findings(&source, &["t"]))
    };
    assert_eq!(found("[package]\nname = \"a\"\n[dependencies]\nt = { path = \"t\" }"), [""; 0]);
    assert_eq!(found("[dependencies]\nt.workspace = true # u = 1"), [""; 0]);
    assert_eq!(found("[dependencies.t]\npath = \"t\""), [""; 0]);
    assert_eq!(found("[package]\nt = 1"), ["Cargo.toml:1: doesn't depend on t"]);
    let two = "[dependencies]\nt = \"1\"\n\n[dev-dependencies]\nu = \"1\"";
    assert_eq!(found(two), ["Cargo.toml:5: depends on u"]);
    let target = "[dependencies]\nt = \"1\"\n[target.'cfg(unix)'.build-dependencies.u]\nv = 1";
    assert_eq!(found(target), ["Cargo.toml:3: depends on u"]);
}

#[test]
fn another_crate_that_is_named_is_found() {
    let named = ["use reference::run;", "extern crate baselines;", "use reference;"];
    let used = ["let run = reference::run;", "    ::baselines::plain::run(lent)"];
    for line in named.into_iter().chain(used) {
        assert!(names_other(line), "{line}");
    }
    for line in ["let reference = &word;", "fn preference::a", "references::a", "use cesca::a;"] {
        assert!(!names_other(line), "{line}");
    }
}
