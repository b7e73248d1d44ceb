//! `cesca file`.

use crate::sandbox::{expect_err, expect_out, stored, Sandbox};
use std::fs;
use std::os::unix::fs::symlink;

/// Listing A.
const A: &str = "\
routine 0 at 0 need 2
routine 1 at 4 need 1

0  8000  30 05  mov R0, 5
1  8000  A8 04  call 4
2  8000  F0 00  mov OUT, R0
3  8000  F8 00  hlt
4  8100  5E 00  push R2
5  8101  10 01  add R0, R0, 1
6  C101  88 00  pop R2
7  C100  AC 00  ret
";

#[test]
fn a_text_becomes_a_file_that_is_admitted_and_run() {
    let sandbox = Sandbox::new("file-a").with("mine.txt", A);
    expect_out(sandbox.cesca(&["file", "mine.txt", "mine.bin"]), "");
    assert!(sandbox.read("mine.bin") == stored("a.bin"));
    expect_out(sandbox.cesca(&["admit", "mine.bin"]), "mine.bin: admitted need 2\n");
    let out = "stop: halted\nsteps: 8\ncycles: 31\nout: 6\nroll:\n";
    expect_out(sandbox.cesca(&["run", "mine.bin"]), out);
}

#[test]
fn a_file_is_replaced() {
    let sandbox = Sandbox::new("file-replaced").with("mine.txt", A).with("mine.bin", [7; 5000]);
    expect_out(sandbox.cesca(&["file", "mine.txt", "mine.bin"]), "");
    assert!(sandbox.read("mine.bin") == stored("a.bin"));
}

#[test]
fn standard_input_and_output() {
    let sandbox = Sandbox::new("file-standard").with("mine.txt", A);
    expect_out(sandbox.cesca_given(&["file", "-", "mine.bin"], A), "");
    assert!(sandbox.read("mine.bin") == stored("a.bin"));
    let output = sandbox.command(&["file", "mine.txt", "-"]).output().expect("the program starts");
    assert!(output.stdout == stored("a.bin"));
    assert_eq!((output.status.code(), &output.stderr[..]), (Some(0), &[][..]));
}

#[test]
fn a_refused_listing_has_a_file_too() {
    let text = A.replace("routine 0 at 0 need 2", "routine 0 at 0 need 1");
    let sandbox = Sandbox::new("file-refused").with("mine.txt", text);
    expect_out(sandbox.cesca(&["file", "mine.txt", "mine.bin"]), "");
    let found = sandbox.cesca(&["admit", "mine.bin"]);
    let out = "mine.bin: refused 15 at 1: the call needs 2 bytes where routine 0 has 1 left\n";
    assert_eq!((found.status, found.out.as_str()), (1, out));
}

#[test]
fn a_wrong_text_is_told_with_its_line_and_makes_no_file() {
    for (right, wrong, told) in [
        ("30 05", "30 06", "line 4: 30 06 is `mov R0, 6`, not `mov R0, 5`"),
        ("  hlt", "", "line 7: F8 00 lacks its instruction, `hlt`"),
        ("F8 00", "1F8 00", "line 7: byte \"1F8\" is not two hexadecimal digits"),
        ("need 2", "need 300", "line 1: need 300 is over 255"),
        ("7  C100", "4  C100", "line 11: address 4 was given on line 8"),
        ("3  8000", "9-11  80FE+", "line 7: the depth would run over 255 at address 11"),
        (
            "\n\n",
            "\n; the main part\n",
            "line 3: \";\" begins no comment here: a listing's text has none",
        ),
    ] {
        let sandbox = Sandbox::new("file-wrong").with("mine.txt", A.replacen(right, wrong, 1));
        let found = sandbox.cesca(&["file", "mine.txt", "mine.bin"]);
        expect_err(found, 1, &format!("mine.txt: {told}\n"));
        assert_eq!(sandbox.names(), ["mine.txt"]);
    }
    let sandbox = Sandbox::new("file-kept").with("mine.txt", "").with("mine.bin", "kept");
    let found = sandbox.cesca(&["file", "mine.txt", "mine.bin"]);
    expect_err(found, 1, "mine.txt: line 1: the text ends without a routine\n");
    assert_eq!(sandbox.read("mine.bin"), b"kept");
}

#[test]
fn files_that_cannot_be_read_or_written() {
    let sandbox = Sandbox::new("file-missing").with("mine.txt", A);
    let missing = "none.txt: No such file or directory\n";
    expect_err(sandbox.cesca(&["file", "none.txt", "mine.bin"]), 2, missing);
    let missing = "none/mine.bin: No such file or directory\n";
    expect_err(sandbox.cesca(&["file", "mine.txt", "none/mine.bin"]), 2, missing);
    let directory = ".: Is a directory\n";
    expect_err(sandbox.cesca(&["file", ".", "mine.bin"]), 2, directory);
    expect_err(sandbox.cesca(&["file", "mine.txt", "."]), 2, directory);
    assert_eq!(sandbox.names(), ["mine.txt"]);
}

#[test]
fn a_text_that_is_not_utf_8_is_told_with_its_line() {
    let halt = A.find("hlt").expect("line 7");
    let (before, behind) = A.as_bytes().split_at(halt);
    for (bytes, line) in [
        (&[before, b"\xFF", behind].concat()[..], 7),
        (b"\xFF\n\xFF\n", 1),
        (b"routine 0 at 0 need 0\r\n\r\n\x80", 3),
        // The first of two bytes, without the second.
        (b"routine 0 at 0 need 0\n\xC3", 2),
        (b"routine 0 at 0 need 0\n\xC3\n", 2),
    ] {
        let sandbox = Sandbox::new("file-bytes").with("mine.txt", bytes);
        let told = format!("mine.txt: line {line}: not UTF-8\n");
        expect_err(sandbox.cesca(&["file", "mine.txt", "mine.bin"]), 1, &told);
        assert_eq!(sandbox.names(), ["mine.txt"]);
    }
}

#[test]
fn the_longest_text_and_longer_ones() {
    let longest = format!("{A}{}", " ".repeat(1_048_576 - A.len()));
    let sandbox = Sandbox::new("file-long").with("mine.txt", &longest);
    expect_out(sandbox.cesca(&["file", "mine.txt", "mine.bin"]), "");
    assert!(sandbox.read("mine.bin") == stored("a.bin"));
    let sandbox = sandbox.with("mine.txt", longest + " ");
    for text in ["mine.txt", "/dev/zero"] {
        let told = format!("{text}: over 1,048,576 bytes, too long for a listing\n");
        expect_err(sandbox.cesca(&["file", text, "made.bin"]), 2, &told);
    }
    assert_eq!(sandbox.names(), ["mine.bin", "mine.txt"]);
}

#[test]
fn a_text_is_not_replaced_by_its_file() {
    let sandbox = Sandbox::new("file-same").with("mine.txt", A);
    fs::hard_link(sandbox.path("mine.txt"), sandbox.path("hard")).expect("a link");
    symlink("mine.txt", sandbox.path("soft")).expect("a link");
    for (text, file) in [
        ("mine.txt", "mine.txt"),
        ("./mine.txt", "mine.txt"),
        ("mine.txt", "hard"),
        ("hard", "mine.txt"),
        ("mine.txt", "soft"),
        ("soft", "mine.txt"),
        ("soft", "hard"),
    ] {
        let told = format!("{file}: the file would replace what it is made from\n");
        expect_err(sandbox.cesca(&["file", text, file]), 2, &told);
        assert_eq!(sandbox.read("mine.txt"), A.as_bytes());
    }
}

#[test]
fn links_to_other_files_are_written() {
    let sandbox = Sandbox::new("file-links").with("mine.txt", A).with("mine.bin", "").with("-", A);
    symlink("mine.bin", sandbox.path("there")).expect("a link");
    symlink("made.bin", sandbox.path("not-yet")).expect("a link");
    for (link, file) in [("there", "mine.bin"), ("not-yet", "made.bin")] {
        expect_out(sandbox.cesca(&["file", "mine.txt", link]), "");
        assert!(sandbox.read(file) == stored("a.bin"));
    }
    // Standard input is not the file that is named so.
    expect_out(sandbox.cesca_given(&["file", "-", "./-"], A), "");
    assert!(sandbox.read("-") == stored("a.bin"));
}
