//! Banks of a wrong length are refused before anything is read.

use crate::banks::Banks;
use crate::sides::ASSEMBLERS;
use cesca::BANK;

/// The lengths that are tried for each bank.
const LENGTHS: [usize; 7] = [0, 1, 255, BANK, 257, 512, 65_536];

/// Checks that both assemblers refuse banks of these lengths, whatever the text, and leave them.
fn check_refused(opcodes: usize, arguments: usize, text: &[u8]) {
    let before = Banks::old(opcodes, arguments);
    for (name, assembler) in ASSEMBLERS {
        let (answer, after) = before.lent(assembler, text);
        let inputs = format!("{name}: banks of {opcodes} and {arguments}");
        assert_eq!(answer, Err((1, 0)), "{inputs}, {:?}", text.escape_ascii());
        assert!(after == before, "{inputs} were written");
    }
}

#[test]
fn a_wrong_length_comes_first() {
    let too_many = b"nop\n".repeat(300);
    let texts: [&[u8]; 6] = [b"", b"hlt\n", b"no\n", b"jmp missing", b"a: nop\na: nop", &too_many];
    let pairs = LENGTHS.into_iter().flat_map(|opcodes| LENGTHS.map(|other| (opcodes, other)));
    for (opcodes, arguments) in pairs.filter(|lengths| *lengths != (BANK, BANK)) {
        for text in texts {
            check_refused(opcodes, arguments, text);
        }
    }
}

#[test]
fn good_lengths_are_filled_whole() {
    for (name, assembler) in ASSEMBLERS {
        let before = Banks::old(BANK, BANK);
        assert_eq!(before.lent(assembler, b""), (Ok(0), Banks::filled(&[])), "{name}");
        let hlt = Banks::filled(&[[0xF8, 0x00]]);
        assert_eq!(before.lent(assembler, b"hlt"), (Ok(1), hlt), "{name}");
        assert_eq!(before.lent(assembler, b"no"), (Err((24, 1)), before.clone()), "{name}");
    }
}
