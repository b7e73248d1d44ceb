//! The documents' links lead to files, and README's map has every crate.

use crate::finding::{expect_none, messages, Finding};
use crate::source::{crates, documents, read, root, Source};

/// What begins the map in README, and what stands behind it.
const MAP: [&str; 2] = ["## The map", "## How to read it"];

/// The links of a document that lead to no file; those that lead elsewhere aren't looked at.
fn broken(source: &Source) -> Vec<Finding> {
    let directory = source.file.rsplit_once('/').map_or("", |(directory, _)| directory);
    let broken = targets(&source.text).into_iter().filter(|(_, target)| {
        let file = target.split('#').next().unwrap_or_default();
        !file.is_empty() && !file.contains("://") && !root().join(directory).join(file).exists()
    });
    let findings = broken
        .map(|(line, target)| Finding::new(&source.file, line, format!("{target} isn't there")));
    findings.collect()
}

/// The targets of a text's links, each with its line.
fn targets(text: &str) -> Vec<(usize, &str)> {
    let lines = (1..).zip(text.lines());
    let targets = lines.flat_map(|(line, text)| {
        let links = text.split("](").skip(1).filter_map(|rest| rest.split(')').next());
        links.map(move |target| (line, target))
    });
    targets.collect()
}

/// The crates that a map doesn't name.
fn left_out<'a>(map: &str, crates: &'a [String]) -> Vec<&'a str> {
    let names = crates.iter().filter(|name| !map.contains(&format!("`{name}`")));
    names.map(String::as_str).collect()
}

#[test]
fn every_link_leads_somewhere() {
    let documents = documents();
    let links: usize = documents.iter().map(|document| targets(&document.text).len()).sum();
    assert!(links >= 40, "only {links} links are seen");
    expect_none(documents.iter().flat_map(broken).collect());
}

#[test]
fn the_map_has_every_crate() {
    let readme = read("README.md").text;
    let (_, rest) = readme.split_once(MAP[0]).expect("the map");
    let (map, _) = rest.split_once(MAP[1]).expect("what stands behind the map");
    assert_eq!(left_out(map, &crates()), [""; 0]);
}

#[test]
fn a_link_to_nothing_and_a_crate_left_out_are_found() {
    let text = "[a](README.md) [b](gone.md#part) [c](#here)\n[d](https://x.y/z) [e](docs)\n";
    let found = messages(broken(&Source::new("NOTES.md", text)));
    assert_eq!(found, ["NOTES.md:1: gone.md#part isn't there"]);
    let inside = Source::new("docs/NOTES.md", "\n[a](README.md) [b](../README.md)");
    assert_eq!(messages(broken(&inside)), ["docs/NOTES.md:2: README.md isn't there"]);
    let crates = ["alu", "isa"].map(String::from);
    assert_eq!(left_out("| `isa` | alu |", &crates), ["alu"]);
}
