//! All 65,536 words, printed and assembled again.

use crate::compare::check_words;
use crate::sides::PRINTERS;
use cesca::{decode, BANK};
use reference::{Form, Instruction};

/// The bits of Ra in a word of an ALU function.
const RA: u16 = 0x0300;

/// The bits of Rb.
const RB: u16 = 0x0003;

/// Every word, opcode first.
fn words() -> impl Iterator<Item = [u8; 2]> {
    (0..=u16::MAX).map(u16::to_be_bytes)
}

/// The text of a word, on which both printers agree.
fn printed(word: [u8; 2]) -> String {
    let fields = decode(word);
    let [library, reference] = PRINTERS.map(|(_, printer)| printer(fields));
    assert_eq!(library, reference, "word {word:02X?}");
    library.expect("a decoded form")
}

/// The word that a word's text is assembled to: its free bits 0, and R0 in a register field that the
/// function table doesn't show.
fn shown(word: [u8; 2]) -> [u8; 2] {
    let form = Instruction::decode(word).form;
    let hidden = match (form, word[1] >> 4) {
        (Form::Alu | Form::AluNone, 0b0000) => RA, // mov Rd, Rb
        // not Rd, Ra; sll Rd, Ra; srl Rd, Ra; sra Rd, Ra; rol Rd, Ra
        (Form::Alu | Form::AluNone, 0b0111 | 0b1100 | 0b1101 | 0b1110 | 0b1111) => RB,
        _ => 0,
    };
    (u16::from_be_bytes(word) & !form.mask("X") & !hidden).to_be_bytes()
}

#[test]
fn every_printed_word_is_assembled_to_what_it_shows() {
    for word in words() {
        check_words(printed(word).as_bytes(), &[shown(word)]);
    }
}

#[test]
fn full_banks_are_printed_and_assembled() {
    let words: Vec<[u8; 2]> = words().collect();
    for page in words.chunks(BANK) {
        let text: String = page.iter().map(|word| printed(*word) + "\n").collect();
        let wanted: Vec<[u8; 2]> = page.iter().map(|word| shown(*word)).collect();
        check_words(text.as_bytes(), &wanted);
        check_words(text.trim_end().as_bytes(), &wanted);
    }
}

#[test]
fn texts_are_short_and_printable() {
    let longest = words().map(|word| printed(word).len()).max();
    assert_eq!(longest, Some("xnor NONE, R0, R0".len()));
    assert!(words().all(|word| printed(word).bytes().all(|byte| (b' '..=b'~').contains(&byte))));
}

#[test]
fn what_the_function_table_hides_is_r0() {
    assert_eq!(shown([0x0F, 0x0F]), [0x0C, 0x03]); // mov R3, R3
    assert_eq!(shown([0x23, 0x0C]), [0x20, 0x00]); // mov NONE, R0
    assert_eq!(shown([0x0F, 0x7F]), [0x0F, 0x70]); // not R3, R3
    assert_eq!(shown([0x0F, 0xCF]), [0x0F, 0xC0]); // sll R3, R3
    assert_eq!(shown([0x0F, 0x1F]), [0x0F, 0x13]); // add R3, R3, R3
    assert_eq!(shown([0x2F, 0x01]), [0x2C, 0x01]); // mask IN, 1
    assert_eq!(shown([0x5B, 0xFE]), [0x5B, 0x02]); // mov [R2], R3
}
