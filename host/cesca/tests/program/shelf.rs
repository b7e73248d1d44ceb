//! `cesca shelve` and `cesca open`.

use crate::sandbox::{expect_err, expect_out, stored, Sandbox};
use std::fs;

/// The first bytes of listing A's shelf file: n, and the word at 0.
const BEGIN: [u8; 6] = [8, 0x30, 0x05, 0x80, 0x80, 0x02];

/// What is told of listing A's shelf file, and of its own file when that is opened.
const TOLD: [&str; 2] =
    ["a.shelf: 51 bytes, of a listing of 1028\n", "made.bin: 1028 bytes, of a shelf file of 51\n"];

/// A sandbox with listing A, and its shelf file.
fn shelved(test: &str) -> (Sandbox, Vec<u8>) {
    let sandbox = Sandbox::new(test).with_stored(&["a.bin"]);
    expect_out(sandbox.cesca(&["shelve", "a.bin", "a.shelf"]), TOLD[0]);
    let file = sandbox.read("a.shelf");
    (sandbox, file)
}

#[test]
fn a_listing_is_shelved_and_opened_again() {
    let (sandbox, file) = shelved("shelf-a");
    assert_eq!((file.len(), &file[..6]), (51, &BEGIN[..]));
    expect_out(sandbox.cesca(&["open", "a.shelf", "made.bin"]), TOLD[1]);
    assert!(sandbox.read("made.bin") == stored("a.bin"));
    assert_eq!(sandbox.names(), ["a.bin", "a.shelf", "made.bin"]);
}

#[test]
fn a_refused_listing_has_a_shelf_file_too() {
    let sandbox = Sandbox::new("shelf-refused").with_stored(&["growing.bin", "pushes.bin"]);
    let told = "mine.shelf: 15 bytes, of a listing of 1026\n";
    expect_out(sandbox.cesca(&["shelve", "growing.bin", "mine.shelf"]), told);
    let told = "mine.bin: 1026 bytes, of a shelf file of 15\n";
    expect_out(sandbox.cesca(&["open", "mine.shelf", "mine.bin"]), told);
    assert!(sandbox.read("mine.bin") == stored("growing.bin"));
    // 255 of 1 + 1 + 3 bytes, the last of 2 + 1 + 3; n has two, the need 255 too.
    let told = "mine.shelf: 1287 bytes, of a listing of 1026\n";
    expect_out(sandbox.cesca(&["shelve", "pushes.bin", "mine.shelf"]), told);
}

#[test]
fn standard_input_and_output() {
    let (sandbox, file) = shelved("shelf-standard");
    expect_out(sandbox.cesca_given(&["shelve", "-", "a.shelf"], stored("a.bin")), TOLD[0]);
    expect_out(sandbox.cesca_given(&["open", "-", "made.bin"], &file), TOLD[1]);
    for (words, made) in
        [(["shelve", "a.bin", "-"], file), (["open", "a.shelf", "-"], stored("a.bin"))]
    {
        let output = sandbox.command(&words).output().expect("the program starts");
        assert!(output.stdout == made, "{words:?}");
        assert_eq!((output.status.code(), &output.stderr[..]), (Some(0), &[][..]));
    }
}

#[test]
fn a_damaged_shelf_file_is_told_with_its_byte_and_makes_no_file() {
    let (sandbox, file) = shelved("shelf-damaged");
    let sandbox = sandbox.with("made.bin", "kept");
    let changed = |at: usize, byte: u8| {
        let mut file = file.clone();
        file[at] = byte;
        file
    };
    for (damaged, told) in [
        (vec![], "30 at byte 0: the file ends before n"),
        (file[..50].to_vec(), "30 at byte 50: the file ends before the need of routine 1"),
        (file[..5].to_vec(), "30 at byte 3: the sheet word of address 0 is cut off: 80 80"),
        (changed(7, 0), "30 at byte 6: the opcode of address 1 is not in its shortest form: A8 00"),
        (changed(7, 2), "31 at byte 6: the opcode of address 1 is 296, not 0 to 255"),
        (changed(46, 65), "31 at byte 46: the number of routines is 65, not 1 to 64"),
        (
            vec![1, 0, 0, 0, 1, 0, 0],
            "31 at byte 0: n is 1, where 0 is the least: all is 0 from address 0 on",
        ),
        ([&file[..], b"\n"].concat(), "31 at byte 51: 1 byte follows the last number"),
        (stored("a.bin"), "31 at byte 1: the opcode of address 0 is 199112744, not 0 to 255"),
    ] {
        fs::write(sandbox.path("a.shelf"), damaged).expect("a file");
        let told = format!("a.shelf: refused {told}\n");
        expect_err(sandbox.cesca(&["open", "a.shelf", "made.bin"]), 1, &told);
        assert_eq!(sandbox.read("made.bin"), b"kept");
    }
}

#[test]
fn files_that_are_no_listings_are_not_shelved() {
    for (length, told) in [
        (511, "1 at 0: there are 256 opcodes and 255 arguments, not 256 of each"),
        (1_023, "2 at 0: the sheet has 511 bytes, not 512"),
        (1_024, "3 at 0: the routine list has 0 bytes, not an even number from 2 to 128"),
        (5_000, "3 at 0: the routine list has more than 128 bytes"),
    ] {
        let sandbox = Sandbox::new("shelf-lengths").with("mine.bin", vec![0; length]);
        let told = format!("mine.bin: refused {told}\n");
        expect_err(sandbox.cesca(&["shelve", "mine.bin", "mine.shelf"]), 1, &told);
        assert_eq!(sandbox.names(), ["mine.bin"]);
    }
}

#[test]
fn files_that_cannot_be_read_or_written() {
    let (sandbox, _) = shelved("shelf-missing");
    let missing = "none: No such file or directory\n";
    expect_err(sandbox.cesca(&["shelve", "none", "made"]), 2, missing);
    expect_err(sandbox.cesca(&["open", "none", "made"]), 2, missing);
    let directory = ".: Is a directory\n";
    expect_err(sandbox.cesca(&["shelve", "a.bin", "."]), 2, directory);
    expect_err(sandbox.cesca(&["open", "a.shelf", "."]), 2, directory);
    let long = "/dev/zero: over 65,536 bytes, too long for a shelf file\n";
    expect_err(sandbox.cesca(&["open", "/dev/zero", "made"]), 2, long);
    assert_eq!(sandbox.names(), ["a.bin", "a.shelf"]);
}

#[test]
fn a_long_number_is_read_to_its_end() {
    let long = [vec![0xFF; 60_000], vec![1]].concat();
    let sandbox = Sandbox::new("shelf-long").with("mine.shelf", long);
    let told = "31 at byte 0: n is a number of 60001 groups, not 0 to 256";
    let told = format!("mine.shelf: refused {told}\n");
    expect_err(sandbox.cesca(&["open", "mine.shelf", "mine.bin"]), 1, &told);
}

#[test]
fn what_a_file_is_made_from_is_not_replaced() {
    let (sandbox, file) = shelved("shelf-same");
    fs::hard_link(sandbox.path("a.bin"), sandbox.path("hard")).expect("a link");
    for words in [["shelve", "a.bin", "hard"], ["shelve", "a.bin", "a.bin"]] {
        let told = format!("{}: the file would replace what it is made from\n", words[2]);
        expect_err(sandbox.cesca(&words), 2, &told);
    }
    let told = "./a.shelf: the file would replace what it is made from\n";
    expect_err(sandbox.cesca(&["open", "a.shelf", "./a.shelf"]), 2, told);
    assert!(sandbox.read("a.bin") == stored("a.bin"));
    assert!(sandbox.read("a.shelf") == file);
}
