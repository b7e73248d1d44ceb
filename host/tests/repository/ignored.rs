//! What git ignores is anchored: a bare `target/` would hide a file below any folder called so.

use crate::finding::{expect_none, messages, Finding};
use crate::source::{read, Source};

/// The files that tell git what to ignore.
const FILES: [&str; 2] = [".gitignore", "host/.gitignore"];

/// The lines that don't begin with a slash.
fn unanchored(source: &Source) -> Vec<Finding> {
    let lines = (1..).zip(source.text.lines()).filter(|(_, line)| !line.starts_with('/'));
    let findings = lines.map(|(number, line)| {
        Finding::new(&source.file, number, format!("{line:?} isn't anchored with a slash"))
    });
    findings.collect()
}

#[test]
fn every_ignored_path_is_anchored() {
    expect_none(FILES.into_iter().map(read).flat_map(|file| unanchored(&file)).collect());
}

#[test]
fn a_path_that_is_not_anchored_is_found() {
    let file = Source::new(".gitignore", "/target/\ntarget/\n*.o\n/host/target/\n");
    let wanted = [
        ".gitignore:2: \"target/\" isn't anchored with a slash",
        ".gitignore:3: \"*.o\" isn't anchored with a slash",
    ];
    assert_eq!(messages(unanchored(&file)), wanted);
}
