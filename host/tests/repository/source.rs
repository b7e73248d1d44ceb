//! The repository's files.

use std::fs;
use std::path::{Path, PathBuf};

/// A text file of the repository.
pub struct Source {
    /// Its path from the repository's root.
    pub file: String,
    /// What it says.
    pub text: String,
}

impl Source {
    /// A file with this text.
    pub fn new(file: &str, text: &str) -> Source {
        Source { file: file.to_string(), text: text.to_string() }
    }
}

/// The repository's root.
pub fn root() -> PathBuf {
    Path::new(env!("CARGO_MANIFEST_DIR")).join("..")
}

/// The file at a path from the root.
pub fn read(file: &str) -> Source {
    let text = fs::read_to_string(root().join(file));
    let text = text.unwrap_or_else(|error| panic!("{file}: {error}"));
    Source { file: file.to_string(), text }
}

/// The documents: README, the docs, and what stands beside the listings.
pub fn documents() -> Vec<Source> {
    let mut documents = files("docs", ".md");
    documents.extend(["README.md", "listings/README.md"].map(read));
    documents
}

/// The crates, in order.
pub fn crates() -> Vec<String> {
    let crates = entries("crates");
    crates.into_iter().filter(|name| root().join("crates").join(name).is_dir()).collect()
}

/// The files with an ending in a part of a crate and below, in order; none if it has no such part.
pub fn below(name: &str, part: &str, ending: &str) -> Vec<Source> {
    files(&format!("crates/{name}/{part}"), ending)
}

/// The files with an ending in a directory and below, in order; none if there is no such directory.
pub fn files(directory: &str, ending: &str) -> Vec<Source> {
    paths(directory).iter().filter(|path| path.ends_with(ending)).map(|path| read(path)).collect()
}

/// The paths of all files in a directory and below, in order; none if there is no such directory.
pub fn paths(directory: &str) -> Vec<String> {
    let inside = entries(directory).into_iter().flat_map(|entry| {
        let path = format!("{directory}/{entry}");
        let is_directory = root().join(&path).is_dir();
        if is_directory {
            paths(&path)
        } else {
            vec![path]
        }
    });
    inside.collect()
}

/// The names in a directory, in order; none if there is no such directory.
fn entries(directory: &str) -> Vec<String> {
    let Ok(entries) = fs::read_dir(root().join(directory)) else { return Vec::new() };
    let names = entries.map(|entry| entry.expect("an entry").file_name().into_string());
    let mut names: Vec<String> = names.map(|name| name.expect("a plain name")).collect();
    names.sort();
    names
}

/// The lines of a text, numbered from 1, each cut where a comment begins.
pub fn lines<'a>(text: &'a str, comment: &str) -> impl Iterator<Item = (usize, &'a str)> {
    let cut = move |line: &'a str| line.split(comment).next().unwrap_or_default();
    (1..).zip(text.lines().map(cut).collect::<Vec<_>>())
}
