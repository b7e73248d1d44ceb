//! What the README of the stored listings tells of each file.

use super::stored::{path, text};
use reference::Listing;
use std::path::PathBuf;

/// What a section of the README tells of a file.
pub struct Described {
    /// Its name, without the ending.
    pub name: String,
    /// What a member types.
    pub source: String,
    /// The listing that it holds.
    pub listing: Listing,
    /// What the desk prints.
    pub printed: String,
}

/// The sections whose heading names a file: the source in its block, or in a file of that name if
/// it is too long for one; in the first block of text the listing, in the second what the desk
/// prints.
pub fn described() -> Vec<Described> {
    let readme = text(&path("../listings/README.md"));
    let sections = readme.split("\n## ").skip(1).filter_map(|section| {
        let (name, rest) = section.split_once(".bin\n")?;
        let source = blocks(rest, "source\n").next().map(str::to_string);
        let source = source.unwrap_or_else(|| text(&file(name).with_extension("txt")));
        let mut texts = blocks(rest, "text\n");
        let (listing, printed) = (Listing::read(texts.next()?), texts.next()?.to_string());
        Some(Described { name: name.to_string(), source, listing, printed })
    });
    sections.collect()
}

/// The fenced blocks of this language in a section.
fn blocks<'a>(section: &'a str, language: &'a str) -> impl Iterator<Item = &'a str> {
    let blocks = section.split("```").skip(1).step_by(2);
    blocks.filter_map(move |block| block.strip_prefix(language))
}

/// The file of a listing.
pub fn file(name: &str) -> PathBuf {
    path("../listings").join(name).with_extension("bin")
}
