//! The texts of `listings/README.md` beside the files that are stored there.

use cesca::Listing;
use std::fs;
use std::path::{Path, PathBuf};

/// The directory of the stored listings.
fn directory() -> PathBuf {
    Path::new(env!("CARGO_MANIFEST_DIR")).join("../../listings")
}

/// The names of the files that the README has a section for, each with its text.
fn texts() -> Vec<(String, String)> {
    let readme = fs::read_to_string(directory().join("README.md")).expect("the README");
    let sections = readme.split("\n## ").filter_map(|section| {
        let (name, told) = section.split_once('\n')?;
        let (_, text) = told.split_once("```text\n")?;
        let (text, _) = text.split_once("```")?;
        name.ends_with(".bin").then(|| (name.to_string(), text.to_string()))
    });
    sections.collect()
}

#[test]
fn each_text_is_converted_to_the_stored_file() {
    for (name, text) in texts() {
        let listing = Listing::from_text(&text).unwrap_or_else(|error| panic!("{name}: {error}"));
        let stored = fs::read(directory().join(&name)).expect("a stored file");
        assert!(listing.to_bytes() == stored, "{name} holds another listing");
    }
}

#[test]
fn each_stored_file_has_a_text() {
    let mut named: Vec<String> = texts().into_iter().map(|(name, _)| name).collect();
    named.sort();
    let entries = fs::read_dir(directory()).expect("the listings");
    let names = entries.map(|entry| entry.expect("an entry").file_name().into_string());
    let names = names.map(|name| name.expect("a plain name"));
    let mut stored: Vec<String> = names.filter(|name| name.ends_with(".bin")).collect();
    stored.sort();
    assert_eq!(named, stored);
    assert!(stored.len() >= 18, "{stored:?}");
}
