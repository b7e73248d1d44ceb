//! Listings as text, for a reader.
//!
//! A line is `routine 1 at 4 need 1`, or an address with its sheet word, its bytes and the
//! instruction that they stand for. `0-254 8000+ 5C 00 push R0` is a line for each of these
//! addresses, the sheet word one higher at each. Addresses without a line are 0 throughout.

use super::Listing;
use crate::Instruction;
use std::ops::RangeInclusive;

impl Listing {
    /// The listing that a text describes.
    ///
    /// # Panics
    ///
    /// Panics at a line of another shape, a routine out of turn, or an instruction that isn't the
    /// one its bytes stand for.
    pub fn read(text: &str) -> Listing {
        let lines = text.lines().filter(|line| !line.trim().is_empty());
        lines.fold(Listing::blank(), |listing, line| {
            let read = listing.with_line(line);
            read.unwrap_or_else(|| panic!("{line:?} is no line of a listing"))
        })
    }

    /// The same with what a line adds, if it has the right shape.
    fn with_line(self, line: &str) -> Option<Listing> {
        let items: Vec<&str> = line.split_whitespace().collect();
        match items[..] {
            ["routine", number, "at", entry, "need", need] => {
                self.with_routine(number.parse().ok()?, entry.parse().ok()?, need.parse().ok()?)
            }
            [addresses, sheet, opcode, argument, ..] => {
                let word = [hexadecimal(opcode)? as u8, hexadecimal(argument)? as u8];
                let said = items[4..].join(" ");
                assert_eq!(Instruction::decode(word).to_string(), said, "{line:?}");
                self.with_words(range(addresses)?, sheet, word)
            }
            _ => None,
        }
    }

    /// The same with a further routine of this number.
    fn with_routine(mut self, number: usize, entry: u8, need: u8) -> Option<Listing> {
        let next = self.list.len() / 2;
        self.list.extend([entry, need]);
        (number == next).then_some(self)
    }

    /// The same with an instruction and a sheet word, which may be rising, at some addresses.
    fn with_words(self, range: RangeInclusive<u8>, sheet: &str, word: [u8; 2]) -> Option<Listing> {
        let (sheet, rise) = sheet.strip_suffix('+').map_or((sheet, 0), |first| (first, 1));
        let first = hexadecimal(sheet)?;
        let numbered = (0..).zip(range);
        Some(numbered.fold(self, |listing, (number, at)| {
            listing.with_word(at, word).with_sheet(at, first + rise * number)
        }))
    }
}

/// The addresses of a line, one or the first and the last.
fn range(text: &str) -> Option<RangeInclusive<u8>> {
    let (first, last) = text.split_once('-').unwrap_or((text, text));
    Some(first.parse().ok()?..=last.parse().ok()?)
}

/// The number with these hexadecimal digits.
fn hexadecimal(digits: &str) -> Option<u16> {
    u16::from_str_radix(digits, 16).ok()
}

#[cfg(test)]
mod tests {
    use super::*;

    #[test]
    fn listing_a() {
        let listing = Listing::a();
        assert_eq!(listing.opcodes[..8], [0x30, 0xA8, 0xF0, 0xF8, 0x5E, 0x10, 0x88, 0xAC]);
        assert_eq!(listing.arguments[..8], [0x05, 0x04, 0, 0, 0, 0x01, 0, 0]);
        let words = [0, 0x80, 0, 0x80, 0, 0x80, 0, 0x80, 0, 0x81, 1, 0x81, 1, 0xC1, 0, 0xC1];
        assert_eq!(listing.sheet[..16], words);
        assert_eq!(listing.list, [0x00, 0x02, 0x04, 0x01]);
        assert_eq!([listing.opcodes.len(), listing.arguments.len()], [256, 256]);
        assert_eq!(listing.sheet.len(), 512);
        assert!(listing.file()[528..1024].iter().all(|byte| *byte == 0));
    }

    #[test]
    fn a_line_for_many_addresses() {
        let listing = Listing::read("3-5 80FE+ 5C 00 push R0\n255 C007 FC 00 nop");
        assert_eq!(listing.opcodes[2..7], [0, 0x5C, 0x5C, 0x5C, 0]);
        assert_eq!(listing.sheet[6..12], [0xFE, 0x80, 0xFF, 0x80, 0x00, 0x81]);
        assert_eq!((listing.opcodes[255], &listing.sheet[510..]), (0xFC, &[0x07, 0xC0][..]));
    }

    #[test]
    #[should_panic(expected = "no line")]
    fn another_shape() {
        Listing::read("0 8000 30");
    }

    #[test]
    #[should_panic(expected = "no line")]
    fn a_routine_out_of_turn() {
        Listing::read("routine 1 at 0 need 0");
    }

    #[test]
    #[should_panic(expected = "mov R0, 5")]
    fn another_instruction() {
        Listing::read("0 8000 30 05 mov R0, 6");
    }
}
