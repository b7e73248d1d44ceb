//! Texts of listings, right ones and every kind of wrong one.

use super::TextError;
use crate::samples::a;
use crate::{Listing, SheetWord};
use std::error::Error;

/// The lines of listing A.
const A: &str = "\
routine 0 at 0 need 2
routine 1 at 4 need 1

0  8000  30 05  mov R0, 5
1  8000  A8 04  call 4
2  8000  F0 00  mov OUT, R0
3  8000  F8 00  hlt
4  8100  5E 00  push R2
5  8101  10 01  add R0, R0, 1
6  C101  88 00  pop R2
7  C100  AC 00  ret
";

/// The routine with which texts of one line begin.
const ROUTINE: &str = "routine 0 at 0 need 0";

/// Checks why a text is no listing.
fn check(text: &str, shown: &str) {
    let error = Listing::from_text(text).expect_err(text);
    assert_eq!(error.to_string(), shown, "{text:?}");
}

/// Checks why a line behind that of a routine is none of a listing.
fn check_line(line: &str, reason: &str) {
    check(&format!("{ROUTINE}\n{line}\n"), &format!("line 2: {reason}"));
}

/// Checks that a line has none of the shapes.
fn check_shape(line: &str) {
    let shapes = "a line is `routine 1 at 4 need 1`, or an address, its sheet word, two bytes \
                  and their instruction, as `0 8000 30 05 mov R0, 5`";
    check_line(line, shapes);
}

#[test]
fn listing_a() {
    assert_eq!(Listing::from_text(A), Ok(a().listing()));
}

#[test]
fn layout_is_free() {
    let spread = format!("\n \t\n{}", A.replace("  ", " \t ").replace('\n', " \r\n\r\n"));
    assert_eq!(Listing::from_text(&spread), Ok(a().listing()));
    assert_eq!(Listing::from_text(A.trim_end()), Ok(a().listing()));
    let small = A.replace("C101", "c101").replace("A8 04", "a8 04");
    assert_eq!(Listing::from_text(&small), Ok(a().listing()));
    let lines: Vec<&str> = A.lines().collect();
    let behind = [&lines[2..], &lines[..2]].concat().join("\n");
    assert_eq!(Listing::from_text(&behind), Ok(a().listing()));
}

#[test]
fn a_line_for_many_addresses() {
    let text = format!(
        "{ROUTINE}\n3-5 80FD+ 5C 00 push R0\n254-255 C007 FC 00 nop\n9-9 FFFF+ 00 00 mov R0, R0"
    );
    let file = Listing::from_text(&text).expect("a listing").to_bytes();
    let (opcodes, rest) = file.split_at(256);
    let (arguments, rest) = rest.split_at(256);
    let (sheet, list) = rest.split_at(512);
    assert_eq!(opcodes[2..7], [0, 0x5C, 0x5C, 0x5C, 0]);
    assert_eq!(opcodes[253..], [0, 0xFC, 0xFC]);
    assert!(arguments.iter().all(|argument| *argument == 0));
    assert_eq!(sheet[4..14], [0, 0, 0xFD, 0x80, 0xFE, 0x80, 0xFF, 0x80, 0, 0]);
    assert_eq!(sheet[16..20], [0, 0, 0xFF, 0xFF]);
    assert_eq!(sheet[506..], [0, 0, 0x07, 0xC0, 0x07, 0xC0]);
    assert_eq!(list, [0, 0]);
}

#[test]
fn other_shapes() {
    for line in ["0", "0 8000", "0 8000 30", "hlt", "mov R0, 5", "routine", "Routine 1"] {
        check_shape(line);
    }
    check_shape("routine 1 at 4");
    check_shape("routine 1 at 4 need 1 byte");
    check_shape("routine 1 need 1 at 4");
    check_line("loop: 8000 30 05 mov R0, 5", "address \"loop:\" is no number");
    check_line("add R0, R0, 1", "address \"add\" is no number");
}

#[test]
fn comments() {
    let wrong = |mark: &str| format!("{mark:?} begins no comment here: a listing's text has none");
    check_line("; a comment", &wrong(";"));
    check_line("# a comment", &wrong("#"));
    check_line("// a comment", &wrong("//"));
    check_line("0 8000 30 05 mov R0, 5 ; five", &wrong(";"));
    check_line("routine 1 at 4 need 1 // adds", &wrong("//"));
}

#[test]
fn instructions_that_are_not_the_bytes() {
    check_line("0 8000 30 05", "30 05 lacks its instruction, `mov R0, 5`");
    check_line("0 8000 30 05 mov R0, 6", "30 05 is `mov R0, 5`, not `mov R0, 6`");
    check_line("0 8000 a8 04 jmp 4", "A8 04 is `call 4`, not `jmp 4`");
    check_line("0 8000 30 05 mov R0,5", "30 05 is `mov R0, 5`, not `mov R0,5`");
    check_line("0 8000 30 05 MOV R0, 5", "30 05 is `mov R0, 5`, not `MOV R0, 5`");
    check_line("0 8000 F8 00 hlt now", "F8 00 is `hlt`, not `hlt now`");
    check_line("0 8000 F8 00 \u{1B}[2J", "F8 00 is `hlt`, not `\\u{1b}[2J`");
    check_line("3-4 8000 22 21 cmp R2, R1", "22 21 is `sub NONE, R2, R1`, not `cmp R2, R1`");
}

#[test]
fn bytes_and_sheet_words_of_another_length() {
    let byte = |digits: &str| format!("byte {digits:?} is not two hexadecimal digits");
    check_line("0 8000 1F8 00 hlt", &byte("1F8"));
    check_line("0 8000 F8 000 hlt", &byte("000"));
    check_line("0 8000 F8 0 hlt", &byte("0"));
    check_line("0 8000 +F 00 hlt", &byte("+F"));
    check_line("0 8000 F8 0x hlt", &byte("0x"));
    check_line("0 8000 F8 hlt -", &byte("hlt"));
    check_line("0 8000 é 00 hlt", &byte("é"));
    let sheet = |digits: &str| format!("sheet word {digits:?} is not four hexadecimal digits");
    check_line("0 800 F8 00 hlt", &sheet("800"));
    check_line("0 08000 F8 00 hlt", &sheet("08000"));
    check_line("0 800G F8 00 hlt", &sheet("800G"));
    check_line("0 +800 F8 00 hlt", &sheet("+800"));
    check_line("0 + F8 00 hlt", &sheet(""));
    check_line("0 8000++ F8 00 hlt", &sheet("8000+"));
    check_line("0 F8 00 hlt now", &sheet("F8"));
}

#[test]
fn addresses() {
    let hlt = |addresses: &str| format!("{addresses} 8000 F8 00 hlt");
    check_line(&hlt("256"), "address 256 is over 255");
    check_line(&hlt("0-256"), "address 256 is over 255");
    check_line(&hlt("99999999999999999999"), "address 99999999999999999999 is over 255");
    check_line(&hlt("5-3"), "the addresses 5-3 end before they begin");
    check_line(&hlt("+5"), "address \"+5\" is no number");
    check_line(&hlt("-5"), "address \"\" is no number");
    check_line(&hlt("5-"), "address \"\" is no number");
    check_line(&hlt("-"), "address \"\" is no number");
    check_line(&hlt("1-2-3"), "address \"2-3\" is no number");
    check_line(&hlt("3-+5"), "address \"+5\" is no number");
    check_line(&hlt("0x10"), "address \"0x10\" is no number");
    check_line(&hlt("٣"), "address \"٣\" is no number");
}

#[test]
fn addresses_given_twice() {
    check(&format!("{A}\n4 8100 5E 00 push R2"), "line 13: address 4 was given on line 8");
    let ranges = "routine 0 at 0 need 0\n3-9 8000 FC 00 nop\n\n0-3 8000 FC 00 nop";
    check(ranges, "line 4: address 3 was given on line 2");
}

#[test]
fn depths_that_rise_to_255() {
    let text = format!("{ROUTINE}\n0-255 8000+ 5C 00 push R0");
    let listing = Listing::from_text(&text).expect("a listing");
    for at in 0..=255 {
        let word = SheetWord { described: true, settled: false, routine: 0, depth: at };
        assert_eq!(listing.sheet_word(at), word);
    }
}

#[test]
fn depths_that_would_run_over_255() {
    let wrong = |at: u8| format!("the depth would run over 255 at address {at}");
    check_line("0-2 80FE+ 5C 00 push R0", &wrong(2));
    check_line("0-255 8001+ 5C 00 push R0", &wrong(255));
    check_line("9-10 BFFF+ 5C 00 push R0", &wrong(10));
    check_line("0-2 FFFE+ 00 00 mov R0, R0", &wrong(2));
    check_line("7-255 FFFF+ 00 00 mov R0, R0", &wrong(8));
}

#[test]
fn routines() {
    check_line("routine 1 at 4 need 300", "need 300 is over 255");
    check_line("routine 1 at 256 need 1", "entry 256 is over 255");
    check_line("routine 300 at 4 need 1", "routine 300 is over 255");
    check_line("routine 1 at +4 need 1", "entry \"+4\" is no number");
    check_line("routine 1 at 4 need -1", "need \"-1\" is no number");
    check_line("routine one at 4 need 1", "routine \"one\" is no number");
    check_line("routine 2 at 4 need 1", "routine 2 comes where routine 1 is due");
    check_line("routine 0 at 0 need 0", "routine 0 was given on line 1");
    check("routine 1 at 0 need 0", "line 1: routine 1 comes where routine 0 is due");
}

#[test]
fn sixty_four_routines_and_one_more() {
    let lines = |count: usize| {
        let lines = (0..count).map(|number| format!("routine {number} at {number} need 0\n"));
        lines.collect::<String>()
    };
    let listing = Listing::from_text(&lines(64)).expect("64 routines");
    assert_eq!(listing.routines().len(), 64);
    check(&lines(65), "line 65: routine 64 is one too many: a listing has 64 at most");
}

#[test]
fn texts_without_a_routine() {
    check("", "line 1: the text ends without a routine");
    check("\n\n", "line 2: the text ends without a routine");
    let word = "0 8000 F8 00 hlt\n";
    check(word, "line 1: the text ends without a routine");
}

#[test]
fn a_text_error_is_an_error() {
    let error = TextError { line: 3, reason: "it is wrong".to_string() };
    let error: Box<dyn Error> = error.into();
    assert_eq!(error.to_string(), "line 3: it is wrong");
}
