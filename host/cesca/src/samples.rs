//! Listing A of the scope paper, and listings that differ from it here and there.

use crate::{Listing, SheetWord};
use cesca_types::{BANK, SHEET};

/// Listing A's words.
const WORDS: [[u8; 2]; 8] = [
    [0x30, 0x05], // mov R0, 5
    [0xA8, 0x04], // call 4
    [0xF0, 0x00], // mov OUT, R0
    [0xF8, 0x00], // hlt
    [0x5E, 0x00], // push R2
    [0x10, 0x01], // add R0, R0, 1
    [0x88, 0x00], // pop R2
    [0xAC, 0x00], // ret
];

/// Listing A's sheet.
const SHEET_WORDS: [u16; 8] = [0x8000, 0x8000, 0x8000, 0x8000, 0x8100, 0x8101, 0xC101, 0xC100];

/// Listing A's list.
const LIST: [u8; 4] = [0, 2, 4, 1];

/// The parts of a listing that is being made.
#[derive(Clone)]
pub struct Sample {
    opcodes: [u8; BANK],
    arguments: [u8; BANK],
    sheet: [u8; SHEET],
    list: Vec<u8>,
}

/// Listing A.
pub fn a() -> Sample {
    let (opcodes, arguments, sheet) = ([0; BANK], [0; BANK], [0; SHEET]);
    let blank = Sample { opcodes, arguments, sheet, list: LIST.to_vec() };
    let addresses = (0..).zip(WORDS.into_iter().zip(SHEET_WORDS));
    addresses.fold(blank, |sample, (at, (word, sheet))| sample.word(at, word).sheet(at, sheet))
}

impl Sample {
    /// The same with this instruction word at an address.
    pub fn word(mut self, at: u8, word: [u8; 2]) -> Sample {
        [self.opcodes[usize::from(at)], self.arguments[usize::from(at)]] = word;
        self
    }

    /// The same with this sheet word at an address.
    pub fn sheet(mut self, at: u8, word: u16) -> Sample {
        self.sheet[2 * usize::from(at)..][..2].copy_from_slice(&word.to_le_bytes());
        self
    }

    /// The same with this list.
    pub fn list(self, list: &[u8]) -> Sample {
        Sample { list: list.to_vec(), ..self }
    }

    /// The listing.
    pub fn listing(&self) -> Listing {
        let Sample { opcodes, arguments, sheet, list } = self.clone();
        Listing::from_parts(opcodes, arguments, sheet, &list).expect("a list of even length")
    }
}

#[test]
fn the_parts_of_listing_a() {
    let listing = a().listing();
    for (at, word) in (0..).zip(WORDS) {
        assert_eq!(listing.word(at), word);
        assert_eq!(listing.instruction(at), crate::decode(word));
    }
    for (at, word) in (0..).zip(SHEET_WORDS) {
        assert_eq!(listing.sheet_word(at), SheetWord::from(word));
    }
    assert_eq!(listing.sheet_word(255), SheetWord::default());
    let routines: Vec<[u8; 2]> = listing.routines().iter().map(|it| [it.entry, it.need]).collect();
    assert_eq!(routines, [[0, 2], [4, 1]]);
}
