//! The sessions of README: what is typed there prints what is shown there.

use crate::sandbox::{ran, Sandbox};
use std::env;
use std::fs;
use std::iter;
use std::os::unix::fs::symlink;
use std::path::{Path, PathBuf};
use std::process::Command;

/// The section that is typed, and the one behind it.
const SECTION: [&str; 2] = ["## A listing of one's own", "## The numbers"];

/// A fenced block of a text.
#[derive(Debug, PartialEq, Eq)]
struct Block {
    /// What stands behind the fence.
    language: String,
    /// Its lines, without the spaces before the fence.
    text: String,
}

/// The fenced blocks of a text.
fn blocks(text: &str) -> Vec<Block> {
    let mut lines = text.lines();
    let blocks = iter::from_fn(|| {
        let fence = lines.find(|line| line.trim_start().starts_with("```"))?;
        let indent = fence.len() - fence.trim_start().len();
        let inside = lines.by_ref().take_while(|line| line.trim() != "```");
        let inside = inside.map(|line| line.get(indent..).unwrap_or_default().to_string() + "\n");
        Some(Block { language: fence.trim()[3..].to_string(), text: inside.collect() })
    });
    blocks.collect()
}

/// What is typed, block by block, with what is shown behind it: nothing, if no text follows.
fn sessions(text: &str) -> Vec<(String, String)> {
    let mut sessions: Vec<(String, String)> = Vec::new();
    for block in blocks(text) {
        match (block.language.as_str(), sessions.last_mut()) {
            ("sh", _) => sessions.push((block.text, String::new())),
            ("text", Some((_, shown))) => shown.push_str(&block.text),
            (other, _) => panic!("a block of {other:?} stands where something is typed"),
        }
    }
    sessions
}

/// The repository.
fn root() -> PathBuf {
    Path::new(env!("CARGO_MANIFEST_DIR")).join("../..")
}

/// What a shell prints in a sandbox, with the program on its path.
fn printed(sandbox: &Sandbox, typed: &str) -> String {
    let program = Path::new(env!("CARGO_BIN_EXE_cesca")).parent().expect("a directory");
    let path = format!("{}:{}", program.display(), env::var("PATH").expect("a path"));
    let mut shell = Command::new("sh");
    shell.arg("-c").arg(format!("exec 2>&1\n{typed}")).current_dir(sandbox.path(""));
    ran(shell.env("PATH", path).output().expect("a shell")).out
}

/// A text without the spaces that end its lines: README doesn't show them.
fn trimmed(text: &str) -> String {
    let lines: Vec<&str> = text.split('\n').map(|line| line.trim_end_matches(' ')).collect();
    lines.join("\n")
}

#[test]
fn what_is_typed_prints_what_is_shown() {
    let readme = fs::read_to_string(root().join("README.md")).expect("README");
    let (_, rest) = readme.split_once(SECTION[0]).expect("the section");
    let (section, _) = rest.split_once(SECTION[1]).expect("the section behind it");
    let sandbox = Sandbox::new("readme");
    for name in ["listings", "target"] {
        symlink(root().join(name), sandbox.path(name)).expect("a link");
    }
    let sessions = sessions(section);
    assert!(sessions.len() >= 15, "only {} sessions are seen", sessions.len());
    for (typed, shown) in sessions {
        assert_eq!(trimmed(&printed(&sandbox, &typed)), shown, "{typed}");
    }
}

#[test]
fn spaces_that_end_a_line_are_not_shown() {
    assert_eq!(trimmed("a \n b  c   \n\n \nd"), "a\n b  c\n\n\nd");
    assert_eq!(trimmed("a\t\n"), "a\t\n");
}

#[test]
fn blocks_without_their_indentation() {
    let text =
        "1. type\n\n   ```sh\n   a <<END\n     b\n\n   END\n   ```\n\n   ```text\n   c\n   ```\n";
    let typed = "a <<END\n  b\n\nEND\n".to_string();
    assert_eq!(sessions(text), [(typed, "c\n".to_string())]);
    let silent = "```sh\na\n```\n```sh\nb\n```\n";
    assert_eq!(sessions(silent), ["a\n", "b\n"].map(|typed| (typed.into(), String::new())));
}
