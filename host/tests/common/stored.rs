//! Files stored in the repository, and the desk program run on them.

use std::fs::{self, File};
use std::path::{Path, PathBuf};
use std::process::Command;

/// A path from the host's directory.
pub fn path(from_host: &str) -> PathBuf {
    Path::new(env!("CARGO_MANIFEST_DIR")).join(from_host)
}

/// The bytes of a stored file.
pub fn read(path: &Path) -> Vec<u8> {
    fs::read(path).unwrap_or_else(|error| panic!("{}: {error}", path.display()))
}

/// The text of a stored file.
pub fn text(path: &Path) -> String {
    String::from_utf8(read(path)).expect("text")
}

/// The names of the files in a directory that have this ending, without it, in order.
pub fn names(directory: &Path, ending: &str) -> Vec<String> {
    let entries = fs::read_dir(directory).expect("a stored directory");
    let names = entries.map(|entry| entry.expect("an entry").file_name().into_string());
    let names = names.map(|name| name.expect("a plain name"));
    let mut names: Vec<String> =
        names.filter_map(|name| name.strip_suffix(ending).map(str::to_string)).collect();
    names.sort();
    names
}

/// What the desk program prints on a file.
pub fn desk(input: &Path) -> String {
    let program = path("../target/bin/desk");
    let shown = program.display();
    assert!(program.is_file(), "{shown} is missing: run `rt check desk` first");
    let input = File::open(input).expect("a stored input");
    let output = Command::new(&program).stdin(input).output().expect("the desk starts");
    assert!(output.status.code().is_some(), "the desk was killed: {}", output.status);
    String::from_utf8(output.stdout).expect("text")
}
