//! `cesca draw`.

use crate::sandbox::{expect_err, expect_out, stored, Sandbox};
use std::fs;

/// Listing A, as a member types it.
const A: &str = "\
mov R0, 5
call bump
mov OUT, R0
hlt
bump: push R2
inc R0
pop R2
ret
";

/// Listing A's sheet, as it is drawn: the paper's own.
const SHEET: &str = "\
routine 0 at 0 need 2
routine 1 at 4 need 1
admitted need 2

 at  routine  depth     V  instruction
  0        0      0     -  mov R0, 5
  1        0      0     -  call 4
  2        0      0     -  mov OUT, R0
  3        0      0     -  hlt
  4        1      0     -  push R2
  5        1      1  #  -  add R0, R0, 1
  6        1      1  #  V  pop R2
  7        1      0     V  ret
";

/// What is told of a file for whose banks nothing is drawn, for this reason.
fn refused(name: &str, reason: &str) -> String {
    let general = "no sheet and list at all would be admitted with these banks";
    format!("{name}: refused 27: {general}: {reason}\n")
}

#[test]
fn a_text_banks_and_a_listing_are_drawn_alike() {
    let sandbox = Sandbox::new("draw-a").with("a.txt", A).with_stored(&["a.bin"]);
    let sandbox = sandbox.with("a.banks", &stored("a.bin")[..512]);
    for name in ["a.txt", "a.banks", "a.bin"] {
        expect_out(sandbox.cesca(&["draw", name]), SHEET);
    }
    expect_out(sandbox.cesca_given(&["draw", "-"], A), SHEET);
    expect_out(sandbox.cesca_given(&["draw", "-"], stored("a.bin")), SHEET);
    assert_eq!(sandbox.names(), ["a.banks", "a.bin", "a.txt"]);
}

#[test]
fn from_a_text_to_a_listings_file() {
    let sandbox = Sandbox::new("draw-file").with("a.txt", A);
    expect_out(sandbox.cesca(&["draw", "a.txt", "a.bin"]), SHEET);
    assert!(sandbox.read("a.bin") == stored("a.bin"));
    expect_out(sandbox.cesca(&["admit", "a.bin"]), "a.bin: admitted need 2\n");
    let output = sandbox.command(&["draw", "a.txt", "-"]).output().expect("the program");
    assert!(output.stdout == stored("a.bin"));
    assert_eq!((output.status.code(), &output.stderr[..]), (Some(0), &[][..]));
}

#[test]
fn needs_that_are_not_the_least_are_told() {
    let slack = "routine 0 at 0 need 9\nroutine 1 at 4 need 3\n\
                 0 8000 30 05 mov R0, 5\n1 8000 A8 04 call 4\n2 8000 F0 00 mov OUT, R0\n\
                 3 8000 F8 00 hlt\n4 8100 5E 00 push R2\n5 8101 10 01 add R0, R0, 1\n\
                 6 8101 88 00 pop R2\n7 8100 AC 00 ret";
    let sandbox = Sandbox::new("draw-needs").with_listing("slack.bin", slack);
    let told = "\nroutine 0 at 0: need 9, least 2\nroutine 1 at 4: need 3, least 1\n";
    expect_out(sandbox.cesca(&["draw", "slack.bin"]), &format!("{SHEET}{told}"));
    expect_out(sandbox.cesca(&["draw", "slack.bin", "a.bin"]), &format!("{SHEET}{told}"));
    assert!(sandbox.read("a.bin") == stored("a.bin"));
    let sandbox = sandbox.with_stored(&["understated.bin", "nested.bin"]);
    let [nested, understated] =
        ["nested.bin", "understated.bin"].map(|name| sandbox.cesca(&["draw", name]).out);
    assert_eq!(understated, format!("{nested}\nroutine 1 at 4: need 2, least 3\n"));
}

#[test]
fn routines_are_compared_by_their_entries() {
    // Routine 2, at 2, is called nowhere and isn't drawn; those behind 0 are numbered anew.
    let text = "routine 0 at 0 need 1\nroutine 1 at 6 need 4\nroutine 2 at 2 need 7\n\
                routine 3 at 4 need 5\n0 8000 A8 06 call 6\n1 8000 A0 08 jmp 8\n\
                2 8200 AC 00 ret\n4 8300 AC 00 ret\n6 8100 AC 00 ret\n\
                8 8000 A8 04 call 4\n9 8000 F8 00 hlt";
    let sandbox = Sandbox::new("draw-entries").with_listing("mine.bin", text);
    let out = "\
routine 0 at 0 need 1
routine 1 at 4 need 0
routine 2 at 6 need 0
admitted need 1

 at  routine  depth    V  instruction
  0        0      0    -  call 6
  1        0      0    -  jmp 8
  4        1      0    -  ret
  6        2      0    -  ret
  8        0      0    -  call 4
  9        0      0    -  hlt

routine 1 at 6: need 4, least 0
routine 3 at 4: need 5, least 0
";
    expect_out(sandbox.cesca(&["draw", "mine.bin"]), out);
}

#[test]
fn nothing_is_drawn_where_nothing_would_be_admitted() {
    let sandbox = Sandbox::new("draw-refused").with("mine.txt", "loop: push R0\njmp loop\n");
    let sandbox = sandbox.with("blank.banks", [0; 512]).with("empty.txt", "");
    let sandbox = sandbox.with_stored(&["masked.bin"]).with("kept.bin", "kept");
    let past = "mov would go on past address 255";
    for (name, reason) in [
        ("mine.txt", "address 0 is reached at depth 0 and, by jmp at 1, at depth 1"),
        ("blank.banks", past),
        ("empty.txt", past),
        ("masked.bin", "jlt at 3 tests V, which may be unsettled there"),
    ] {
        let told = refused(name, reason);
        expect_err(sandbox.cesca(&["draw", name]), 1, &told);
        expect_err(sandbox.cesca(&["draw", name, "kept.bin"]), 1, &told);
        assert_eq!(sandbox.read("kept.bin"), b"kept");
    }
}

#[test]
fn a_refused_text_is_told_as_by_assemble() {
    let long = "nop\n".repeat(257);
    let wrong = A.replace("R0, 5", "R0, 256");
    for text in [wrong.as_str(), "jmp end\n", &long, "hlt \u{e4}\n", "routine 0 at 0 need 0\n"] {
        let sandbox = Sandbox::new("draw-text").with("mine.txt", text);
        let assembled = sandbox.cesca(&["assemble", "mine.txt"]);
        assert!(assembled.status == 1 && assembled.err.contains(": refused 2"), "{assembled:?}");
        assert_eq!(sandbox.cesca(&["draw", "mine.txt", "mine.bin"]), assembled);
        assert_eq!(sandbox.names(), ["mine.txt"]);
    }
}

#[test]
fn a_text_as_long_as_banks_or_a_listing_is_a_text() {
    let [short, long] = [512, 1_028].map(|length| "hlt\n".repeat(length / 4));
    let sandbox = Sandbox::new("draw-length").with("short.txt", short).with("long.txt", long);
    let out = "\
routine 0 at 0 need 0
admitted need 0

 at  routine  depth    V  instruction
  0        0      0    -  hlt
";
    expect_out(sandbox.cesca(&["draw", "short.txt"]), out);
    let told = "long.txt: refused 26: 257 lines make more than 256 words\n";
    expect_err(sandbox.cesca(&["draw", "long.txt"]), 1, told);
}

#[test]
fn files_of_other_lengths_are_told() {
    let zero = "it has a byte 0 and so is no text:";
    let longer = format!("{zero} it is longer than banks and no listing:");
    for (length, told) in [
        (511, format!("1: {zero} its length is 511, and that of banks is 512")),
        (1_000, format!("2 at 0: {longer} the sheet has 488 bytes, not 512")),
        (1_153, format!("3 at 0: {longer} the routine list has more than 128 bytes")),
        (65_536, format!("3 at 0: {longer} the routine list has more than 128 bytes")),
    ] {
        let sandbox = Sandbox::new("draw-short").with("mine.bin", vec![0; length]);
        let told = format!("mine.bin: refused {told}\n");
        expect_err(sandbox.cesca(&["draw", "mine.bin"]), 1, &told);
    }
}

#[test]
fn files_that_cannot_be_read_or_written() {
    let sandbox = Sandbox::new("draw-missing").with("mine.txt", A);
    let missing = "none.txt: No such file or directory\n";
    expect_err(sandbox.cesca(&["draw", "none.txt", "mine.bin"]), 2, missing);
    expect_err(sandbox.cesca(&["draw", "mine.txt", "."]), 2, ".: Is a directory\n");
    let long = "/dev/zero: over 65,536 bytes, too long for a source\n";
    expect_err(sandbox.cesca(&["draw", "/dev/zero"]), 2, long);
    assert_eq!(sandbox.names(), ["mine.txt"]);
}

#[test]
fn what_is_drawn_from_is_not_replaced() {
    let sandbox = Sandbox::new("draw-same").with("mine.txt", A).with_stored(&["a.bin"]);
    fs::hard_link(sandbox.path("mine.txt"), sandbox.path("hard")).expect("a link");
    for (from, file) in [("mine.txt", "mine.txt"), ("mine.txt", "hard"), ("a.bin", "./a.bin")] {
        let told = format!("{file}: the file would replace what it is made from\n");
        expect_err(sandbox.cesca(&["draw", from, file]), 2, &told);
    }
    assert_eq!(sandbox.read("mine.txt"), A.as_bytes());
    assert!(sandbox.read("a.bin") == stored("a.bin"));
}
