//! Texts of a million bytes and more.

use crate::compare::{agreed, check};
use crate::random::each_case;

/// The bytes of a big text, or a few more.
const BIG: usize = 1_000_000;

/// A part that is repeated until there are so many bytes or more.
fn repeated(part: &[u8], bytes: usize) -> Vec<u8> {
    part.repeat(bytes.div_ceil(part.len()))
}

#[test]
fn one_line_without_an_end() {
    for part in [&b"a"[..], b" ", b"0", b"1", b"\0", b"\xFF", b",", b", ", b":", b": ", b"["] {
        check(&repeated(part, BIG), Err((24, 1)));
    }
    for part in [&b"nop "[..], b"mov R0, ", b"a: ", b"R0, ", b"nop\r", b"nop\0", b"[R0]"] {
        check(&repeated(part, BIG), Err((24, 1)));
    }
}

#[test]
fn one_long_part_of_a_line() {
    let long = |part: &[u8]| repeated(part, BIG);
    for (before, part, after) in [
        (&b""[..], &b"a"[..], &b": nop"[..]), // a label
        (b"jmp ", b"a", b""),
        (b"mov R0, ", b"1", b""),
        (b"mov R0, 0x", b"0", b"5"),
        (b"mov R0, [", b"a", b"]"),
        (b"nop", b" ", b""),
        (b"", b"n", b"op"),
        (b"add R0", b", R0", b""),
    ] {
        let line = [before, &long(part), after].concat();
        check(&line, Err((24, 1)));
        check(&[b"nop\n", &line[..], b"\nnop\n"].concat(), Err((24, 2)));
    }
}

#[test]
fn line_feeds_alone() {
    check(&repeated(b"\n", BIG), Err((24, 1)));
    check(&[b"nop", &repeated(b"\n", BIG)[..]].concat(), Err((24, 2)));
}

#[test]
fn many_good_lines() {
    let nops = repeated(b"nop\n", BIG);
    let lines = BIG / 4;
    check(&nops, Err((26, 0)));
    check(&[&nops[..], b"no"].concat(), Err((24, lines + 1)));
    check(&[&nops[..], b"jmp a\nnop"].concat(), Err((25, lines + 1)));
    check(&[b"a: nop\n", &nops[..], b"a: nop\n"].concat(), Err((25, lines + 2)));
    check(&[b"jmp a\n", &nops[..], b"a: nop\nnop"].concat(), Err((26, 0)));
    check(&repeated(b"jmp a\n", BIG), Err((25, 1)));
    check(&repeated(b"mov LCDcmd, Init\n", BIG), Err((26, 0)));
}

#[test]
fn many_labels() {
    check(&repeated(b"a: jmp a\n", BIG), Err((25, 2)));
    let line = |number: usize| format!("{}: jmp {}\n", name(number), name(number / 2));
    let text: String = (0..3_000).map(line).collect();
    assert!(text.len() > 40_000);
    check(text.as_bytes(), Err((26, 0)));
    check((text.clone() + "jmp missing").as_bytes(), Err((25, 3_001)));
    check((text + &line(0)).as_bytes(), Err((25, 3_001)));
}

/// The label of a number: its digits as letters.
fn name(number: usize) -> String {
    number.to_string().bytes().map(|digit| char::from(digit - b'0' + b'a')).collect()
}

#[test]
fn a_million_random_bytes() {
    let mut refused = 0;
    each_case(4, |random| {
        let mut text = random.bytes(BIG + 3);
        refused += u64::from(agreed(&text).is_err());
        text.retain(|byte| *byte != b'\n');
        refused += u64::from(agreed(&text) == Err((24, 1)));
    });
    assert_eq!(refused, 8);
}
