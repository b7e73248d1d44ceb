//! `cesca assemble`.

use crate::sandbox::{expect_err, expect_out, ran, stored, Sandbox};
use std::fs::{self, File};

/// Listing A, as a member types it.
const A: &str = "\
mov R0, 5
call bump
mov OUT, R0
hlt
bump: push R2
inc R0
pop R2
ret
";

/// The banks with which a stored listing begins.
fn banks(name: &str) -> Vec<u8> {
    stored(name)[..512].to_vec()
}

#[test]
fn a_text_becomes_banks() {
    let sandbox = Sandbox::new("assemble-a").with("mine.txt", A);
    let out = "mine.banks: 8 words\n";
    expect_out(sandbox.cesca(&["assemble", "mine.txt", "mine.banks"]), out);
    assert!(sandbox.read("mine.banks") == banks("a.bin"));
    let sandbox = sandbox.with("one.txt", "hlt").with("none.txt", "").with("two.banks", [7; 5000]);
    expect_out(sandbox.cesca(&["assemble", "one.txt", "one.banks"]), "one.banks: 1 word\n");
    assert!(sandbox.read("one.banks") == [&[0xF8][..], &[0; 511]].concat());
    expect_out(sandbox.cesca(&["assemble", "none.txt", "two.banks"]), "two.banks: 0 words\n");
    assert!(sandbox.read("two.banks") == [0; 512]);
}

#[test]
fn words_for_keying_in() {
    let sandbox = Sandbox::new("assemble-words").with("mine.txt", A);
    let out = " at  word   instruction
  0  30 05  mov R0, 5
  1  A8 04  call 4
  2  F0 00  mov OUT, R0
  3  F8 00  hlt
  4  5E 00  push R2
  5  10 01  add R0, R0, 1
  6  88 00  pop R2
  7  AC 00  ret
";
    expect_out(sandbox.cesca(&["assemble", "mine.txt"]), out);
    expect_out(sandbox.cesca_given(&["assemble", "-"], ""), " at  word   instruction\n");
    let full = sandbox.cesca_given(&["assemble", "-"], "mov LCD, [0xFF]\n".repeat(256));
    let lines: Vec<&str> = full.out.lines().collect();
    assert_eq!((full.status, lines.len()), (0, 257));
    assert_eq!(lines[256], "255  EC FF  mov LCD, [255]");
    assert_eq!(sandbox.names(), ["mine.txt"]);
}

#[test]
fn standard_input_and_output() {
    let sandbox = Sandbox::new("assemble-standard");
    expect_out(sandbox.cesca_given(&["assemble", "-", "mine.banks"], A), "mine.banks: 8 words\n");
    assert!(sandbox.read("mine.banks") == banks("a.bin"));
    let sandbox = sandbox.with("mine.txt", A);
    let output = sandbox.command(&["assemble", "mine.txt", "-"]).output().expect("the program");
    assert!(output.stdout == banks("a.bin"));
    assert_eq!((output.status.code(), &output.stderr[..]), (Some(0), &[][..]));
}

#[test]
fn a_refusal_is_told_with_its_line_and_makes_no_file() {
    let long = "nop\n".repeat(257);
    for (text, told) in [
        (
            A.replace("R0, 5", "R0, 256"),
            "24 at line 1: \"mov R0, 256\" is no instruction or macro: 256 is over 255",
        ),
        (
            A.replace("hlt\n", "hlt\n\n"),
            "24 at line 5: \"\" is no instruction or macro: the line is empty",
        ),
        (
            A.replace('\n', "\r\n"),
            "24 at line 1: \"mov R0, 5\\r\" is no instruction or macro: it has a carriage return \
             in column 10",
        ),
        (
            A.replace("call bump", "call jump"),
            "25 at line 2: \"call jump\" uses the label \"jump\", which no line gives",
        ),
        (
            A.replace("\ninc", "\nbump: inc"),
            "25 at line 6: \"bump: inc R0\" gives the label \"bump\", which line 5 gave",
        ),
        (long, "26: 257 lines make more than 256 words"),
    ] {
        let sandbox = Sandbox::new("assemble-refused").with("mine.txt", text);
        let told = format!("mine.txt: refused {told}\n");
        expect_err(sandbox.cesca(&["assemble", "mine.txt"]), 1, &told);
        expect_err(sandbox.cesca(&["assemble", "mine.txt", "mine.banks"]), 1, &told);
        assert_eq!(sandbox.names(), ["mine.txt"]);
    }
}

#[test]
fn bytes_that_are_no_text_are_refused() {
    let sandbox = Sandbox::new("assemble-bytes").with("mine.txt", b"hlt\n\xFF\x1B[2J\n");
    let sandbox = sandbox.with("mine.banks", "kept");
    let told =
        "mine.txt: refused 24 at line 2: \"\\xff\\x1b[2J\" is no instruction or macro: it has \
                a byte outside ASCII in column 1\n";
    expect_err(sandbox.cesca(&["assemble", "mine.txt", "mine.banks"]), 1, told);
    assert_eq!(sandbox.read("mine.banks"), b"kept");
}

#[test]
fn files_that_cannot_be_read_or_written() {
    let sandbox = Sandbox::new("assemble-missing").with("mine.txt", A);
    let missing = "none.txt: No such file or directory\n";
    expect_err(sandbox.cesca(&["assemble", "none.txt"]), 2, missing);
    expect_err(sandbox.cesca(&["assemble", "none.txt", "mine.banks"]), 2, missing);
    let directory = ".: Is a directory\n";
    expect_err(sandbox.cesca(&["assemble", "mine.txt", "."]), 2, directory);
    assert_eq!(sandbox.names(), ["mine.txt"]);
}

#[test]
fn the_longest_source_and_longer_ones() {
    let longest = "nop\n".repeat(16_384);
    let sandbox = Sandbox::new("assemble-long").with("mine.txt", &longest);
    let told = "mine.txt: refused 26: 16384 lines make more than 256 words\n";
    expect_err(sandbox.cesca(&["assemble", "mine.txt"]), 1, told);
    let sandbox = sandbox.with("mine.txt", longest + "n");
    for text in ["mine.txt", "/dev/zero"] {
        let told = format!("{text}: over 65,536 bytes, too long for a source\n");
        expect_err(sandbox.cesca(&["assemble", text, "made.banks"]), 2, &told);
    }
    assert_eq!(sandbox.names(), ["mine.txt"]);
}

#[test]
fn a_text_is_not_replaced_by_its_banks() {
    let sandbox = Sandbox::new("assemble-same").with("mine.txt", A);
    fs::hard_link(sandbox.path("mine.txt"), sandbox.path("hard")).expect("a link");
    for banks in ["mine.txt", "./mine.txt", "hard"] {
        let told = format!("{banks}: the file would replace what it is made from\n");
        expect_err(sandbox.cesca(&["assemble", "mine.txt", banks]), 2, &told);
        assert_eq!(sandbox.read("mine.txt"), A.as_bytes());
    }
}

#[test]
fn a_text_on_standard_input_is_not_replaced_by_its_banks() {
    let sandbox = Sandbox::new("assemble-same-input").with("mine.txt", A);
    fs::hard_link(sandbox.path("mine.txt"), sandbox.path("hard")).expect("a link");
    let given = |banks: &str| {
        let text = File::open(sandbox.path("mine.txt")).expect("the text");
        ran(sandbox.command(&["assemble", "-", banks]).stdin(text).output().expect("the program"))
    };
    for banks in ["mine.txt", "hard", "/dev/stdin"] {
        let told = format!("{banks}: the file would replace what it is made from\n");
        expect_err(given(banks), 2, &told);
        assert_eq!(sandbox.read("mine.txt"), A.as_bytes());
    }
    expect_out(given("mine.banks"), "mine.banks: 8 words\n");
    assert!(sandbox.read("mine.banks") == banks("a.bin"));
    // Nothing is lost where both are the same device.
    expect_out(sandbox.cesca(&["assemble", "-", "/dev/null"]), "/dev/null: 0 words\n");
}
