//! Listings: their four parts, made from text or cut out of a file.

mod text;

use super::sheet::words;
use super::{admit, SheetWord};
use cesca_types::{Refusal, BANK, SHEET};

/// Listing A of the scope paper.
const A: &str = "
    routine 0 at 0 need 2
    routine 1 at 4 need 1

    0  8000  30 05  mov R0, 5
    1  8000  A8 04  call 4
    2  8000  F0 00  mov OUT, R0
    3  8000  F8 00  hlt
    4  8100  5E 00  push R2
    5  8101  10 01  add R0, R0, 1
    6  C101  88 00  pop R2
    7  C100  AC 00  ret
";

/// A listing, its parts of any length.
#[derive(Clone, Debug, PartialEq, Eq)]
pub struct Listing {
    /// The bank of opcodes.
    pub opcodes: Vec<u8>,
    /// The bank of arguments.
    pub arguments: Vec<u8>,
    /// The stack sheet, the low byte of each word first.
    pub sheet: Vec<u8>,
    /// The routine list, entry and need of each.
    pub list: Vec<u8>,
}

impl Listing {
    /// Banks and sheet of 0 and a list of no routines.
    pub fn blank() -> Listing {
        Listing {
            opcodes: vec![0; BANK],
            arguments: vec![0; BANK],
            sheet: vec![0; SHEET],
            list: Vec::new(),
        }
    }

    /// Listing A of the scope paper.
    pub fn a() -> Listing {
        Listing::read(A)
    }

    /// 255 pushes, and this word at 255 at depth 255.
    pub fn pushes(last: [u8; 2]) -> Listing {
        let pushes = Listing::read("routine 0 at 0 need 255\n0-254 8000+ 5C 00 push R0");
        pushes.with_word(255, last).with_sheet(255, 0x80FF)
    }

    /// The listing in a file: its parts one behind another, the later ones short if it is short.
    pub fn cut(file: &[u8]) -> Listing {
        let (opcodes, rest) = file.split_at(file.len().min(BANK));
        let (arguments, rest) = rest.split_at(rest.len().min(BANK));
        let (sheet, list) = rest.split_at(rest.len().min(SHEET));
        let [opcodes, arguments, sheet, list] =
            [opcodes, arguments, sheet, list].map(<[u8]>::to_vec);
        Listing { opcodes, arguments, sheet, list }
    }

    /// The file of the listing.
    pub fn file(&self) -> Vec<u8> {
        [&self.opcodes[..], &self.arguments, &self.sheet, &self.list].concat()
    }

    /// The reference's answer on the listing.
    pub fn admit(&self) -> Result<(), Refusal> {
        admit(&self.opcodes, &self.arguments, &self.sheet, &self.list)
    }

    /// The sheet's words.
    pub fn sheet_words(&self) -> Vec<SheetWord> {
        words(&self.sheet)
    }

    /// The same with this instruction word at an address.
    pub fn with_word(mut self, at: u8, word: [u8; 2]) -> Listing {
        let at = usize::from(at);
        [self.opcodes[at], self.arguments[at]] = word;
        self
    }

    /// The same with this sheet word at an address.
    pub fn with_sheet(mut self, at: u8, word: u16) -> Listing {
        self.sheet[2 * usize::from(at)..][..2].copy_from_slice(&word.to_le_bytes());
        self
    }

    /// The same with this list.
    pub fn with_list(mut self, list: &[u8]) -> Listing {
        self.list = list.to_vec();
        self
    }
}

#[cfg(test)]
mod tests {
    use super::*;

    #[test]
    fn a_file_cut_anywhere_keeps_its_bytes() {
        let file = Listing::a().file();
        assert_eq!(file.len(), 1028);
        assert_eq!(Listing::cut(&file), Listing::a());
        for length in 0..file.len() {
            let part = &file[..length];
            let cut = Listing::cut(part);
            assert_eq!(cut.file(), part);
            let lengths = [&cut.opcodes, &cut.arguments, &cut.sheet].map(Vec::len);
            let wanted = [0, 256, 512].map(|start| length.saturating_sub(start));
            assert_eq!(lengths, [wanted[0].min(256), wanted[1].min(256), wanted[2].min(512)]);
        }
    }
}
