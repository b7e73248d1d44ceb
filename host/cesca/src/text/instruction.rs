//! Instructions as the proved printer spells them.

use crate::source::print;
use cesca_types::Fields;

/// The highest number of a register.
const LAST_REGISTER: u8 = 3;

/// The highest number of an ALU function.
const LAST_FUNCTION: u8 = 15;

/// The instruction as [`print()`] spells it, for fields that [`decode`](crate::decode) gave.
///
/// A register number over 3 is taken as 3, a function number over 15 as 15, so that no fields are
/// refused.
pub fn instruction_text(fields: Fields) -> String {
    let Fields { form, d, a, f, b, imm } = fields;
    let [d, a, b] = [d, a, b].map(|register| register.min(LAST_REGISTER));
    let fields = Fields { form, d, a, f: f.min(LAST_FUNCTION), b, imm };
    print(fields).unwrap_or_else(|refusal| panic!("{fields:?} is refused: {refusal}"))
}

/// The mnemonic of an instruction: `mov`.
pub fn mnemonic(fields: Fields) -> String {
    let mut text = instruction_text(fields);
    text.truncate(text.find(' ').unwrap_or(text.len()));
    text
}

#[cfg(test)]
mod tests {
    use super::*;
    use crate::calls::decode;

    /// Checks the text of a word.
    fn check(word: [u8; 2], text: &str) {
        assert_eq!(instruction_text(decode(word)), text, "word {word:02X?}");
    }

    #[test]
    fn registers_and_numbers() {
        check([0x30, 0x05], "mov R0, 5");
        check([0x10, 0x01], "add R0, R0, 1");
        check([0x1E, 0xFF], "add R3, R2, 255");
        check([0x25, 0x00], "cmp R1, 0");
        check([0x28, 0x0F], "mask R0, 15");
        check([0x9B, 0x00], "swap R2, R3");
        check([0x5E, 0x00], "push R2");
        check([0x88, 0x00], "pop R2");
    }

    #[test]
    fn functions_of_the_alu() {
        check([0x0D, 0x22], "sub R3, R1, R2");
        check([0x0D, 0x02], "mov R3, R2");
        check([0x0D, 0x72], "not R3, R1");
        check([0x0D, 0xC2], "sll R3, R1");
        check([0x22, 0x21], "sub NONE, R2, R1");
        check([0x22, 0xB1], "xnor NONE, R2, R1");
        check([0x22, 0x01], "mov NONE, R1");
        check([0x22, 0xF1], "rol NONE, R2");
    }

    #[test]
    fn places_and_devices() {
        check([0x54, 0x40], "mov [64], R0");
        check([0x59, 0x03], "mov [R3], R1");
        check([0x68, 0x07], "mov R2, [7]");
        check([0x79, 0x00], "mov R2, [R1]");
        check([0x2C, 0x80], "mask IN, 128");
        check([0x44, 0x00], "mov R1, IN");
        check([0x50, 0x00], "mov IN, Ack");
        check([0xE0, 0x38], "mov LCDcmd, 56");
        check([0xE4, 0x41], "mov LCD, 65");
        check([0xE9, 0x00], "mov LCD, R1");
        check([0xEC, 0x10], "mov LCD, [16]");
        check([0xF0, 0x00], "mov OUT, R0");
        check([0xF4, 0x09], "mov OUT, [9]");
    }

    #[test]
    fn jumps_and_words_without_operands() {
        check([0xA0, 0x02], "jmp 2");
        check([0xA6, 0x02], "jmp R2");
        check([0xA8, 0x04], "call 4");
        check([0xD4, 0x0B], "jleu 11");
        check([0xAC, 0x07], "ret");
        check([0xF8, 0x07], "hlt");
        check([0xFF, 0xFF], "nop");
    }

    #[test]
    fn fields_that_no_word_has() {
        let fields = Fields { form: 0, d: 4, a: 255, f: 16, b: 4, imm: 0 };
        assert_eq!(instruction_text(fields), "rol R3, R3");
        assert_eq!(instruction_text(Fields { form: 10, ..fields }), "mov [R3], R3");
        assert_eq!(instruction_text(Fields { form: 40, ..fields }), "nop");
    }

    #[test]
    fn mnemonics() {
        assert_eq!(mnemonic(decode([0x30, 0x05])), "mov");
        assert_eq!(mnemonic(decode([0x20, 0xB0])), "xnor");
        assert_eq!(mnemonic(decode([0xF8, 0x00])), "hlt");
    }
}
