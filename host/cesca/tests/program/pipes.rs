//! Outputs that nobody reads, and outputs that can't be written.

use crate::sandbox::{expect_err, ran, stored, Sandbox, ENDLESS};
use cesca::{shelve, Listing};
use std::fs::OpenOptions;
use std::io::{self, BufRead, BufReader, Write};
use std::process::Stdio;

/// A directory with a listing that is admitted and its shelf file, one that is refused, one without
/// an end, its text, and its source.
fn sandbox(test: &str) -> Sandbox {
    let sandbox = Sandbox::new(test).with_stored(&["pushes.bin", "masked.bin"]);
    let pushes = Listing::from_bytes(&stored("pushes.bin")).expect("a listing");
    sandbox
        .with("pushes.shelf", shelve(&pushes))
        .with_listing("endless.bin", ENDLESS)
        .with("mine.txt", ENDLESS)
        .with("source.txt", "jmp 0")
}

#[test]
fn a_closed_pipe_ends_every_command_quietly() {
    let sandbox = sandbox("pipes-closed");
    for (words, status) in [
        (&["help"][..], 0),
        (&["admit", "pushes.bin", "pushes.bin"], 0),
        (&["run", "pushes.bin"], 0),
        (&["busy", "pushes.bin"], 0),
        (&["room", "pushes.bin", "endless.bin"], 0),
        (&["sheet", "pushes.bin"], 0),
        (&["sheet", "masked.bin"], 1),
        (&["step", "pushes.bin"], 0),
        (&["file", "mine.txt", "-"], 0),
        (&["assemble", "source.txt"], 0),
        (&["assemble", "source.txt", "-"], 0),
        (&["assemble", "source.txt", "made.banks"], 0),
        (&["draw", "pushes.bin"], 0),
        (&["draw", "source.txt", "-"], 0),
        (&["draw", "source.txt", "made.bin"], 0),
        (&["print", "pushes.bin"], 0),
        (&["shelve", "pushes.bin", "-"], 0),
        (&["shelve", "pushes.bin", "made.shelf"], 0),
        (&["open", "pushes.shelf", "-"], 0),
        (&["open", "pushes.shelf", "made.bin"], 0),
    ] {
        let (reader, writer) = io::pipe().expect("a pipe");
        drop(reader);
        let output = sandbox.command(words).stdout(writer).output().expect("the program starts");
        expect_err(ran(output), status, "");
    }
}

#[test]
fn a_pipe_that_is_closed_later_ends_steps_without_an_end() {
    let sandbox = sandbox("pipes-later");
    let mut command = sandbox.command(&["step", "endless.bin"]);
    command.stdin(Stdio::piped()).stdout(Stdio::piped()).stderr(Stdio::piped());
    let mut child = command.spawn().expect("the program starts");
    let mut input = child.stdin.take().expect("a pipe");
    input.write_all(b"99999999999999999999\n").expect("a line");
    let mut lines = BufReader::new(child.stdout.take().expect("a pipe")).lines();
    assert_eq!(lines.next().expect("a line").expect("text"), "0: jmp 0");
    drop(lines);
    expect_err(ran(child.wait_with_output().expect("the program ends")), 0, "");
}

#[test]
fn what_cannot_be_written_is_told() {
    // There, every write fails.
    let Ok(full) = OpenOptions::new().write(true).open("/dev/full") else { return };
    let sandbox = sandbox("pipes-full");
    for words in [&["help"][..], &["admit", "pushes.bin"], &["sheet", "masked.bin"]] {
        let full = full.try_clone().expect("a file");
        let output = sandbox.command(words).stdout(full).output().expect("the program starts");
        expect_err(ran(output), 2, "standard output: No space left on device\n");
    }
}

#[test]
fn a_closed_standard_error_does_no_harm() {
    let sandbox = sandbox("pipes-error");
    for words in [&["admit", "none.bin"][..], &["frob"], &["run", "none.bin"]] {
        let (reader, writer) = io::pipe().expect("a pipe");
        drop(reader);
        let output = sandbox.command(words).stderr(writer).output().expect("the program starts");
        expect_err(ran(output), 2, "");
    }
}
