//! Every kind of refusal, and lines of any bytes.

mod lines;

use super::explained;
use crate::source::{assemble, assemble_into, SourceRefusal};
use cesca_types::Refusal;

/// Checks how the refusal of a text is shown.
fn check(text: &str, shown: &str) {
    let refusal = assemble(text.as_bytes()).expect_err(text);
    assert_eq!(refusal.to_string(), shown, "{text:?}");
}

#[test]
fn labels_that_are_missing() {
    let told = |line: &str, label: &str| {
        format!("25 at line 1: \"{line}\" uses the label \"{label}\", which no line gives")
    };
    check("jmp end", &told("jmp end", "end"));
    check("call j\nhlt\n", &told("call j", "j"));
    check("a: jz b\njz b", &told("a: jz b", "b"));
    check("mov R0, [vec]", &told("mov R0, [vec]", "vec"));
    check("mov [vec], R0", &told("mov [vec], R0", "vec"));
    check("mov LCD, [LCD]", &told("mov LCD, [LCD]", "LCD"));
    check("jgtu R0, 5, end", &told("jgtu R0, 5, end", "end"));
    check("jmp IN", &told("jmp IN", "IN"));
    let case = told("jmp End", "End") + ": line 2 gives one of another case";
    check("jmp End\nend: hlt\n", &case);
}

#[test]
fn labels_that_are_given_twice() {
    let told = "25 at line 3: \"a: ret\" gives the label \"a\", which line 1 gave";
    check("a: hlt\nhlt\na: ret\na: hlt", told);
    let both = "25 at line 2: \"a: jmp b\" gives the label \"a\", which line 1 gave";
    check("a: hlt\na: jmp b", both);
    let before = "25 at line 1: \"jmp b\" uses the label \"b\", which no line gives";
    check("jmp b\na: hlt\na: hlt", before);
}

#[test]
fn too_many_words() {
    check(&"hlt\n".repeat(257), "26: 257 lines make more than 256 words");
    check(&"mov LCDcmd, Init\n".repeat(86), "26: 86 lines make more than 256 words");
    let assembled = assemble("hlt\n".repeat(256).as_bytes()).expect("256 words");
    assert_eq!((assembled.words, assembled.opcodes), (256, [0xF8; 256]));
}

#[test]
fn banks_of_another_length() {
    for (opcodes, arguments, told) in [
        (255, 256, "1: the bank of opcodes has 255 bytes, not 256"),
        (256, 0, "1: the bank of arguments has 0 bytes, not 256"),
        (257, 257, "1: the bank of opcodes has 257 bytes, not 256"),
    ] {
        let (mut opcodes, mut arguments) = (vec![7; opcodes], vec![7; arguments]);
        for text in ["hlt", "no line"] {
            let found = assemble_into(text.as_bytes(), &mut opcodes, &mut arguments);
            assert_eq!(found.expect_err(text).to_string(), told);
        }
        assert!(opcodes.iter().chain(&arguments).all(|byte| *byte == 7));
    }
}

#[test]
fn another_number_keeps_its_general_words() {
    for number in [1, 22, 24, 25] {
        for line in [None, Some(0), Some(1), Some(3), Some(usize::MAX)] {
            let refusal = SourceRefusal::new(number, line);
            assert_eq!(refusal.words(), Refusal::of_call(number).words());
            for text in ["a: hlt", "a: jmp a\n", "mov R0, IN", "mov IN, Ack\nhlt", ""] {
                let found = explained(refusal.clone(), text.as_bytes(), [256, 256]);
                assert_eq!(found, refusal, "{text:?}");
            }
        }
    }
    let bytes = explained(SourceRefusal::new(25, Some(1)), b"\xFF: jmp \xFF", [256, 256]);
    assert_eq!(bytes, SourceRefusal::new(25, Some(1)));
}

/// Fails if a line is refused and nothing is found that is wrong with it; yields whether it is
/// refused by 24.
fn is_explained(line: &[u8]) -> bool {
    let Err(refusal) = assemble(line) else { return false };
    let general = Refusal::of_call(refusal.number());
    assert_ne!(refusal.words(), general.words(), "{}", line.escape_ascii());
    refusal.number() == 24
}

#[test]
fn every_line_that_is_refused_is_explained() {
    let mut short = (0..=u16::MAX).map(u16::to_be_bytes).filter(|line| !line.contains(&b'\n'));
    assert!(short.all(|line| is_explained(&line)));
    let mut refused = 0;
    for line in ["end: mov [end], R0", "jgtu R0, 0x1F, 255", "mov LCDcmd, Init", "a: swap R1"] {
        for (before, behind) in (0..line.len()).map(|at| line.as_bytes().split_at(at)) {
            for byte in 0..=255 {
                refused += usize::from(is_explained(&[before, &[byte], behind].concat()));
                refused += usize::from(is_explained(&[before, &[byte], &behind[1..]].concat()));
            }
            refused += usize::from(is_explained(before)) + usize::from(is_explained(behind));
        }
    }
    assert!(refused > 25_000, "only {refused} lines are refused");
}
