//! The desk where reading or writing fails: what was read before is the input, and a failed write
//! ends it.

use crate::stored::path;
use std::fs::{File, OpenOptions};
use std::io::Write;
use std::os::unix::process::ExitStatusExt;
use std::process::{Command, ExitStatus, Stdio};

/// The signal that ends a program that writes to a pipe which nobody reads.
const SIGPIPE: i32 = 13;

/// What the desk prints on an empty input.
const EMPTY: &str = "refused 1 at 0\n";

/// The desk, ready to be started.
fn desk() -> Command {
    Command::new(path("../target/bin/desk"))
}

/// What the desk prints where its standard input is this.
fn printed(input: impl Into<Stdio>) -> String {
    let output = desk().stdin(input).output().expect("the desk starts");
    assert!(output.status.success(), "{}", output.status);
    String::from_utf8(output.stdout).expect("text")
}

/// How the desk ends where its standard output is this.
fn ended(output: impl Into<Stdio>) -> ExitStatus {
    desk().stdin(Stdio::null()).stdout(output).status().expect("the desk starts")
}

/// What the shell prints that runs the desk with these redirections.
fn redirected(how: &str) -> String {
    let command = format!("exec \"$0\" {how}");
    let desk = path("../target/bin/desk");
    let output = Command::new("sh").arg("-c").arg(command).arg(desk).output().expect("a shell");
    assert!(output.status.success(), "{how}: {}", output.status);
    String::from_utf8(output.stdout).expect("text")
}

#[test]
fn an_input_without_bytes_is_refused_by_1() {
    assert_eq!(printed(Stdio::null()), EMPTY);
}

#[test]
fn an_input_that_cannot_be_read_is_empty() {
    let directory = File::open(path("tests/desk")).expect("a directory");
    assert_eq!(printed(directory), EMPTY);
    assert_eq!(redirected("<&-"), EMPTY);
}

#[test]
fn an_input_in_pieces_is_read_whole() {
    let stored = crate::stored::read(&path("tests/desk/a.in"));
    let mut desk =
        desk().stdin(Stdio::piped()).stdout(Stdio::piped()).spawn().expect("the desk starts");
    let mut input = desk.stdin.take().expect("a pipe");
    for piece in stored.chunks(100) {
        input.write_all(piece).expect("the desk reads");
    }
    drop(input);
    let output = desk.wait_with_output().expect("the desk ends");
    let wanted = crate::stored::text(&path("tests/desk/a.out"));
    assert_eq!(String::from_utf8(output.stdout).expect("text"), wanted);
}

#[test]
fn an_output_that_cannot_be_written_ends_the_desk() {
    assert_eq!(redirected("</dev/null >&-"), "");
    let full = OpenOptions::new().write(true).open("/dev/full").expect("Linux");
    assert!(ended(full).success());
    let read_only = File::open(path("tests/desk/a.in")).expect("a stored input");
    assert!(ended(read_only).success());
}

#[test]
fn an_output_that_nobody_reads_ends_the_desk() {
    let (reader, writer) = std::io::pipe().expect("a pipe");
    drop(reader);
    let status = ended(writer);
    let as_others = status.success() || status.signal() == Some(SIGPIPE);
    assert!(as_others, "{status}");
}
