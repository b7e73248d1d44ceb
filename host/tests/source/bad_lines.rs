//! Lines that are no instruction or macro, each beside a line that is one.

use crate::compare::{agreed, check};

/// A bad line, and the nearest good one.
type Pair = (&'static [u8], &'static str);

/// What is wrong between the words of a line, or outside them.
const LAYOUT: [Pair; 30] = [
    (b"", "nop"),
    (b" ", "nop"),
    (b"\t", "nop"),
    (b"\r", "nop"),
    (b"; a comment", "nop"),
    (b"# a comment", "nop"),
    (b"nop ; a comment", "nop"),
    (b"nop;", "nop"),
    (b"nop // a comment", "nop"),
    (b"mov\tR0, 1", "mov R0, 1"),
    (b"mov R0,\t1", "mov R0, 1"),
    (b"\tnop", "nop"),
    (b"nop\t", "nop"),
    (b"nop\r", "nop"),
    (b"\rnop", "nop"),
    (b" nop", "nop"),
    (b"nop ", "nop"),
    (b"mov  R0, 1", "mov R0, 1"),
    (b"mov R0,  1", "mov R0, 1"),
    (b"mov R0, 1 ", "mov R0, 1"),
    (b"mov R0,1", "mov R0, 1"),
    (b"mov R0 , 1", "mov R0, 1"),
    (b"mov R0 1", "mov R0, 1"),
    (b"mov, R0, 1", "mov R0, 1"),
    (b"mov R0, 1,", "mov R0, 1"),
    (b"movR0, 1", "mov R0, 1"),
    (b"mov R0, [ 1]", "mov R0, [1]"),
    (b"mov R0, [1", "mov R0, [1]"),
    (b"mov R0, 1]", "mov R0, [1]"),
    (b"mov R0, [[1]]", "mov R0, [1]"),
];

/// Bytes that no line has.
const BYTES: [Pair; 10] = [
    (b"\xEF\xBB\xBFnop", "nop"),        // a byte order mark
    (b"n\xC3\xB6p", "nop"),             // ö in UTF-8
    (b"n\xF6p", "nop"),                 // ö in Latin-1
    (b"nop\xC2\xA0", "nop"),            // a space that doesn't break
    (b"mov R0, \xD9\xA3", "mov R0, 3"), // another script's 3
    (b"\xFF: nop", "b: nop"),
    (b"nop\0", "nop"),
    (b"\0", "nop"),
    (b"nop\x7F", "nop"),
    (b"mov R0, \x001", "mov R0, 1"),
];

/// Numbers that are none.
const NUMBERS: [Pair; 24] = [
    (b"mov R0, 256", "mov R0, 255"),
    (b"mov R0, 999", "mov R0, 99"),
    (b"mov R0, 1000", "mov R0, 100"),
    (b"mov R0, 4294967296", "mov R0, 0"),
    (b"mov R0, 18446744073709551617", "mov R0, 1"),
    (b"mov R0, 00", "mov R0, 0"),
    (b"mov R0, 007", "mov R0, 7"),
    (b"mov R0, 010", "mov R0, 10"),
    (b"mov R0, 0255", "mov R0, 255"),
    (b"mov R0, 0x5", "mov R0, 0x05"),
    (b"mov R0, 0x", "mov R0, 0x00"),
    (b"mov R0, 0x100", "mov R0, 0x10"),
    (b"mov R0, 0x005", "mov R0, 0x05"),
    (b"mov R0, 0X05", "mov R0, 0x05"),
    (b"mov R0, 0x0g", "mov R0, 0x0f"),
    (b"mov R0, 0x+5", "mov R0, 0x05"),
    (b"mov R0, 05h", "mov R0, 5"),
    (b"mov R0, $05", "mov R0, 5"),
    (b"mov R0, -1", "mov R0, 255"),
    (b"mov R0, +1", "mov R0, 1"),
    (b"mov R0, 1.", "mov R0, 1"),
    (b"mov R0, ", "mov R0, 0"),
    (b"jmp 256", "jmp 255"),
    (b"mov R0, [256]", "mov R0, [255]"),
];

/// Mnemonics and operands that are none.
const SPELLINGS: [Pair; 36] = [
    (b"NOP", "nop"),
    (b"Nop", "nop"),
    (b"MOV R0, 1", "mov R0, 1"),
    (b"JNV 3", "jnv 3"),
    (b"halt", "hlt"),
    (b"add", "nop"),
    (b"mov R4, 1", "mov R3, 1"),
    (b"mov R0, R4", "mov R0, R3"),
    (b"jmp R4", "jmp R3"),
    (b"mov R0, R10", "mov R0, R1"),
    (b"mov R0, R", "mov R0, R0"),
    (b"mov R0, r1", "mov R0, R1"),
    (b"mov [R4], R0", "mov [R3], R0"),
    (b"mov R0", "mov R0, 1"),
    (b"push", "push R0"),
    (b"jmp", "jmp 0"),
    (b"add R0, R1", "add R0, R1, R2"),
    (b"jgt R0, R1", "jgt R0, R1, 2"),
    (b"nop 1", "nop"),
    (b"ret R0", "ret"),
    (b"push R0, R1", "push R0"),
    (b"not R0, R1, R2", "not R0, R1"),
    (b"add R0, R1, R2, R3", "add R0, R1, R2"),
    (b"jgt R0, R1, 2, 3", "jgt R0, R1, 2"),
    (b"mov R0, in", "mov R0, IN"),
    (b"mov IN, ACK", "mov IN, Ack"),
    (b"mov none, R0", "mov NONE, R0"),
    (b"mov NONE, 1", "mov NONE, R1"),
    (b"add NONE, R0, 1", "add NONE, R0, R1"),
    (b"sub R0, R1, 1", "sub R0, R1, R2"),
    (b"mov R0, NONE", "mov NONE, R0"),
    (b"mov LCDCMD, 1", "mov LCDcmd, 1"),
    (b"mov LCD, Clr", "mov LCDcmd, Clr"),
    (b"mov OUT, 1", "mov OUT, R1"),
    (b"call R0", "call 0"),
    (b"jmp [3]", "jmp 3"),
];

/// Labels that are none, or stand where none may; `a` and its like are given before.
const LABELS: [Pair; 20] = [
    (b"abcdefghijklm: nop", "abcdefghijkl: nop"),
    (b"jmp abcdefghijklm", "jmp a"),
    (b"b1: nop", "b: nop"),
    (b"1b: nop", "b: nop"),
    (b"jmp a1", "jmp a"),
    (b"b_c: nop", "bc: nop"),
    (b"b-c: nop", "bc: nop"),
    (b": nop", "b: nop"),
    (b"b:nop", "b: nop"),
    (b"b:  nop", "b: nop"),
    (b"b : nop", "b: nop"),
    (b" b: nop", "b: nop"),
    (b"b: ", "b: nop"),
    (b"b:", "b: nop"),
    (b"b: c: nop", "b: nop"),
    (b"b", "b: nop"),
    (b"mov R0, a", "mov R0, [a]"),
    (b"cmp R0, a", "jmp a"),
    (b"mov [a, R0", "mov [a], R0"),
    (b"R1: jmp R1", "R: jmp R"),
];

/// All pairs.
fn pairs() -> impl Iterator<Item = Pair> {
    let pairs = [&LAYOUT[..], &BYTES, &NUMBERS, &SPELLINGS, &LABELS];
    pairs.into_iter().flatten().copied()
}

/// Checks that a text is refused for its line of this number.
fn check_refused(parts: &[&[u8]], line: usize) {
    check(&parts.concat(), Err((24, line)));
}

#[test]
fn each_bad_line_is_refused_at_its_number() {
    for (bad, _) in pairs() {
        check_refused(&[bad, b"\n"], 1);
        check_refused(&[b"a: nop\n", bad, b"\nnop\n"], 2);
        check_refused(&[b"a: nop\nnop\n", bad, b"\n", bad, b"\n"], 3);
    }
}

#[test]
fn a_bad_line_comes_before_a_label_and_before_too_many_words() {
    let nops = b"nop\n".repeat(300);
    for (bad, _) in pairs() {
        check_refused(&[b"jmp missing\na: nop\na: nop\n", bad, b"\n"], 4);
        check_refused(&[&nops, bad, b"\n"], 301);
        check_refused(&[bad, b"\n", &nops], 1);
    }
}

#[test]
fn the_nearest_good_lines_are_read() {
    for (bad, good) in pairs() {
        let text = format!("a: hlt\n{good}\nhlt");
        assert!(agreed(text.as_bytes()).is_ok(), "{good}, near {}", bad.escape_ascii());
    }
}

#[test]
fn lines_end_in_line_feeds_alone() {
    check(b"", Ok(0));
    check(b"\n", Err((24, 1)));
    check(b"\n\n", Err((24, 1)));
    check(b"nop", Ok(1));
    check(b"nop\n", Ok(1));
    check(b"nop\n\n", Err((24, 2)));
    check(b"\nnop", Err((24, 1)));
    check(b"nop\r\nnop\r\n", Err((24, 1)));
    check(b"nop\rnop", Err((24, 1)));
    check(b"nop\x0Bnop", Err((24, 1)));
    check(b"nop\0\n", Err((24, 1)));
}
