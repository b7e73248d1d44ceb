//! The documents are filled in: none has a place that waits for its text, as `@` and capitals mark.

use crate::finding::{expect_none, messages, Finding};
use crate::source::{documents, Source};

/// The placeholders of a document.
fn findings(source: &Source) -> Vec<Finding> {
    let lines = (1..).zip(source.text.lines());
    let found = lines.flat_map(|(line, text)| {
        let finding =
            move |word| Finding::new(&source.file, line, format!("@{word}@ isn't filled"));
        placeholders(text).into_iter().map(finding)
    });
    found.collect()
}

/// The words of capitals that stand between two `@`.
fn placeholders(line: &str) -> Vec<&str> {
    let parts: Vec<&str> = line.split('@').collect();
    let between = parts.get(1..parts.len() - 1).unwrap_or_default().iter().copied();
    between.filter(|part| is_word(part)).collect()
}

/// Whether a text is a word of capitals; digits, hyphens and low lines may stand behind the first.
fn is_word(text: &str) -> bool {
    let may_follow = |letter: char| {
        letter.is_ascii_uppercase() || letter.is_ascii_digit() || ['-', '_'].contains(&letter)
    };
    text.starts_with(|letter: char| letter.is_ascii_uppercase()) && text.chars().all(may_follow)
}

#[test]
fn every_document_is_filled_in() {
    let documents = documents();
    assert!(documents.len() >= 6, "only {} documents are seen", documents.len());
    expect_none(documents.iter().flat_map(findings).collect());
}

#[test]
fn a_placeholder_is_found() {
    let text = "@GATE@\n\nof @TIME_2@ and @X@ s\n@A @B@\n";
    let wanted = ["D.md:1: @GATE@", "D.md:3: @TIME_2@", "D.md:3: @X@", "D.md:4: @B@"];
    let wanted = wanted.map(|place| format!("{place} isn't filled"));
    assert_eq!(messages(findings(&Source::new("D.md", text))), wanted);
}

#[test]
fn other_signs_are_none() {
    for line in ["", "@", "@@", "111100XX @@@@@@@@", "@GATE", "GATE@", "a@b@c", "@ A @", "@2@"] {
        assert_eq!(placeholders(line), [""; 0], "{line}");
    }
}
