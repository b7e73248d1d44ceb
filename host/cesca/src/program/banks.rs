//! The banks that a file gives.

use super::failure::Failure;
use super::input;
use cesca::{Assembled, Listing, Refusal, SourceRefusal, BANK};
use std::ffi::OsStr;

/// Banks, and the listing in whose file they stand.
#[derive(Debug, PartialEq, Eq)]
pub struct Banks {
    /// The bank of opcodes.
    pub opcodes: [u8; BANK],
    /// The bank of arguments.
    pub arguments: [u8; BANK],
    /// The listing, if the file is that of one.
    pub listing: Option<Listing>,
}

impl Banks {
    /// The banks that a file stands for: those of its source, or those that stand in it.
    pub fn of_file(name: &OsStr) -> Result<Banks, Failure> {
        let file = input::source(name)?;
        if !is_source(&file) {
            let banks = Banks::stored(&file).map_err(no_text);
            return banks.map_err(|refusal| Failure::of_refusal(name, &refusal));
        }
        Banks::assembled(&file).map_err(|refusal| Failure::of_refusal(name, &refusal))
    }

    /// The banks that stand in a file, alone or in that of a listing; or the refusal of another
    /// length.
    pub fn stored(file: &[u8]) -> Result<Banks, Refusal> {
        let (opcodes, rest) = file.split_first_chunk().ok_or_else(|| short(file))?;
        let (arguments, rest) = rest.split_first_chunk().ok_or_else(|| short(file))?;
        let listing = if rest.is_empty() { None } else { Some(input::listing(file)) };
        let listing = listing.transpose().map_err(longer)?;
        Ok(Banks { opcodes: *opcodes, arguments: *arguments, listing })
    }

    /// The banks of a source, or its refusal.
    fn assembled(text: &[u8]) -> Result<Banks, SourceRefusal> {
        let Assembled { opcodes, arguments, .. } = cesca::assemble(text)?;
        Ok(Banks { opcodes, arguments, listing: None })
    }
}

/// Whether a file is taken for a source: it has no byte 0, and is ASCII or of a length that neither
/// banks nor listings have.
///
/// ASCII that has the length of banks may be taken so, since as banks it would have neither jump
/// nor `ret` nor `hlt`, whose opcodes are over 127, and with such banks nothing is admitted.
fn is_source(file: &[u8]) -> bool {
    !file.contains(&0) && (file.is_ascii() || Banks::stored(file).is_err())
}

/// The refusal of a file that is too short for banks.
fn short(file: &[u8]) -> Refusal {
    let words = format!("its length is {}, and that of banks is {}", file.len(), 2 * BANK);
    Refusal::of_call(1).with_words(words)
}

/// The refusal of a file that is longer than banks and no listing.
fn longer(refusal: Refusal) -> Refusal {
    let words = format!("it is longer than banks and no listing: {}", refusal.words());
    refusal.with_words(words)
}

/// The refusal of a file that can't be a source either.
fn no_text(refusal: Refusal) -> Refusal {
    let words = format!("it has a byte 0 and so is no text: {}", refusal.words());
    refusal.with_words(words)
}

#[cfg(test)]
mod tests {
    use super::*;
    use cesca::{decode, facts, Class};

    /// A file of this length with one byte in another one's place.
    fn file(length: usize, byte: u8) -> Vec<u8> {
        let mut file = b"hlt\n".repeat(length.div_ceil(4));
        file.truncate(length);
        file[length / 2] = byte;
        file
    }

    #[test]
    fn text_of_any_length_is_a_source() {
        assert!(is_source(b""));
        for length in 1..=1_200 {
            assert!(is_source(&file(length, b'x')), "{length}");
            assert!(is_source(&file(length, 127)), "{length}");
            assert!(!is_source(&file(length, 0)), "{length}");
        }
    }

    #[test]
    fn bytes_over_127_are_no_source_in_files_as_long_as_banks_or_a_listing() {
        let lengths = (1..=1_200).filter(|length| !is_source(&file(*length, 128)));
        let wanted = [512].into_iter().chain((1_026..=1_152).step_by(2));
        assert_eq!(lengths.collect::<Vec<_>>(), wanted.collect::<Vec<_>>());
    }

    #[test]
    fn with_opcodes_up_to_127_no_program_ends() {
        for opcode in 0..=127 {
            let class = facts(decode([opcode, 0])).class;
            assert!(matches!(class, Class::Next | Class::Push), "{opcode}");
            let refusal = Listing::from_banks([opcode; BANK], [0; BANK]).expect_err("a refusal");
            assert_eq!(refusal.number(), 27, "{opcode}");
        }
    }
}
