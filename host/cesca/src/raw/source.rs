//! The exports for instructions and listings as text, and their answers read into this crate's
//! words.

use super::unknown;
use crate::SourceRefusal;
use cesca_types::{Fields, Refusal, BANK};

/// The longest text of an instruction.
const LONGEST: usize = 23;

/// A printer's answer: 0, the text's length and the text with spaces behind it, or a ground's
/// number, 0 and spaces.
#[repr(C)]
#[derive(Debug)]
pub struct PrintNumbers {
    number: u8,
    length: u8,
    text: [u8; LONGEST],
}

/// An assembler's answer: 0, 0 and the words; or a ground's number, its line or 0, and 0.
#[repr(C)]
#[derive(Debug)]
pub struct AssembleNumbers {
    number: u8,
    line: usize,
    words: usize,
}

extern "C" {
    pub fn cesca_print(fields: Fields) -> PrintNumbers;
    pub fn cesca_assemble(
        text: *const u8,
        text_len: usize,
        opcodes: *mut u8,
        opcodes_len: usize,
        arguments: *mut u8,
        arguments_len: usize,
    ) -> AssembleNumbers;
}

impl PrintNumbers {
    /// The text for 0, else the refusal of that number.
    pub fn outcome(&self) -> Result<String, Refusal> {
        let parts = self.text.split_at_checked(self.length.into());
        let parts = parts.filter(|(_, rest)| rest.iter().all(|byte| *byte == b' '));
        match (self.number, parts) {
            (0, Some((text, _))) if !text.is_empty() && text.is_ascii() => {
                Ok(text.iter().copied().map(char::from).collect())
            }
            (22 | 23, Some(([], _))) => Err(Refusal::of_call(self.number)),
            _ => unknown("text or refusal of one", format!("{self:?}")),
        }
    }
}

impl AssembleNumbers {
    /// The number of words for 0, else the refusal of that number.
    pub fn outcome(&self) -> Result<usize, SourceRefusal> {
        match (self.number, self.line, self.words) {
            (0, 0, words) if words <= BANK => Ok(words),
            (1 | 26, 0, 0) => Err(SourceRefusal::new(self.number, None)),
            (24 | 25, line @ 1.., 0) => Err(SourceRefusal::new(self.number, Some(line))),
            _ => unknown("number of words or refusal of a text", format!("{self:?}")),
        }
    }
}

#[cfg(test)]
mod tests {
    use super::*;
    use std::panic::catch_unwind;

    /// A printer's answer.
    fn printed(number: u8, length: u8, text: &[u8; LONGEST]) -> Option<Result<String, Refusal>> {
        catch_unwind(|| PrintNumbers { number, length, text: *text }.outcome()).ok()
    }

    /// An assembler's answer: the words, or number and line.
    fn assembled(
        number: u8,
        line: usize,
        words: usize,
    ) -> Option<Result<usize, (u8, Option<usize>)>> {
        let answer = catch_unwind(|| AssembleNumbers { number, line, words }.outcome()).ok()?;
        Some(answer.map_err(|refusal| (refusal.number(), refusal.line())))
    }

    #[test]
    fn texts_and_their_refusals() {
        let (hlt, blank) = (b"hlt                    ", b"                       ");
        assert_eq!(printed(0, 3, hlt), Some(Ok("hlt".to_string())));
        let longest = [b'a'; LONGEST];
        assert_eq!(printed(0, 23, &longest), Some(Ok("a".repeat(23))));
        for number in 1..=255 {
            let refusal = [22, 23].contains(&number).then(|| Err(Refusal::of_call(number)));
            assert_eq!(printed(number, 0, blank), refusal, "{number}");
            assert_eq!(printed(number, 3, hlt), None, "{number}");
        }
        for (length, text) in [(0, blank), (2, hlt), (24, hlt), (3, b"h\xFFt                    ")]
        {
            assert_eq!(printed(0, length, text), None, "{length}");
        }
    }

    #[test]
    fn words_and_their_refusals() {
        assert_eq!(assembled(0, 0, 0), Some(Ok(0)));
        assert_eq!(assembled(0, 0, 256), Some(Ok(256)));
        for (words, line) in [(257, 0), (1, 1), (usize::MAX, 0), (0, 1)] {
            assert_eq!(assembled(0, line, words), None);
        }
        for number in 1..=255 {
            let whole = [1, 26].contains(&number).then_some(Err((number, None)));
            assert_eq!(assembled(number, 0, 0), whole, "{number}");
            for line in [1, usize::MAX] {
                let at = [24, 25].contains(&number).then_some(Err((number, Some(line))));
                assert_eq!(assembled(number, line, 0), at, "{number}");
            }
            assert_eq!([assembled(number, 0, 1), assembled(number, 1, 1)], [None, None]);
        }
    }
}
