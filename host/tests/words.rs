//! All 65,536 two-byte words, the library beside the reference.

use cesca::{decode, encode, facts, instruction_text, Fields};
use reference::Instruction;

/// Every two-byte word, opcode first.
fn words() -> impl Iterator<Item = [u8; 2]> {
    (0..=u16::MAX).map(u16::to_be_bytes)
}

#[test]
fn every_word_decodes_as_in_the_reference() {
    for word in words() {
        let wanted = Fields::from(Instruction::decode(word));
        assert_eq!(decode(word), wanted, "word {word:02X?}");
    }
}

#[test]
fn every_word_comes_back_with_its_free_bits_cleared() {
    for word in words() {
        let free = Instruction::decode(word).form.mask("X");
        let clean = u16::from_be_bytes(word) & !free;
        assert_eq!(encode(decode(word)), Ok(clean.to_be_bytes()), "word {word:02X?}");
    }
}

#[test]
fn every_word_has_the_facts_of_the_reference() {
    for word in words() {
        let wanted = Instruction::decode(word).facts();
        assert_eq!(facts(decode(word)), wanted, "word {word:02X?}");
    }
}

#[test]
fn every_word_is_spelled_as_in_the_reference() {
    for word in words() {
        let wanted = Instruction::decode(word).to_string();
        assert_eq!(instruction_text(decode(word)), wanted, "word {word:02X?}");
    }
}
