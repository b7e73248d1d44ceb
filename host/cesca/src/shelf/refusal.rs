//! Why a shelf file is not opened.

use cesca_types::Refusal;
use std::error::Error;
use std::fmt::{self, Display, Formatter};

/// Why a shelf file is not opened, shown as `31 at byte 12: ..` or, where a buffer is at fault, as
/// `1: ..`.
///
/// `==` compares the words too, so compare [`number`](ShelfRefusal::number) and
/// [`byte`](ShelfRefusal::byte) where what is wrong matters and not how it is put.
#[derive(Clone, Debug, PartialEq, Eq)]
pub struct ShelfRefusal {
    refusal: Refusal,
    byte: Option<usize>,
}

impl ShelfRefusal {
    /// The refusal with what its number says in general.
    pub(crate) fn new(number: u8, byte: Option<usize>) -> ShelfRefusal {
        ShelfRefusal { refusal: Refusal::of_call(number), byte }
    }

    /// The same with other words for what is wrong.
    pub(crate) fn with_words(self, words: String) -> ShelfRefusal {
        ShelfRefusal { refusal: self.refusal.with_words(words), ..self }
    }

    /// The ground's number: 1 to 3 for the buffers, 30 or 31 for the file.
    pub fn number(&self) -> u8 {
        self.refusal.number()
    }

    /// The byte of the file where the number begins that is refused, the first being 0; where bytes
    /// follow, the first of them. A number that is missing altogether begins at the file's end.
    /// None for 1 to 3.
    pub fn byte(&self) -> Option<usize> {
        self.byte
    }

    /// What is wrong.
    pub fn words(&self) -> &str {
        self.refusal.words()
    }
}

impl Display for ShelfRefusal {
    fn fmt(&self, out: &mut Formatter<'_>) -> fmt::Result {
        let (number, words) = (self.number(), self.words());
        match self.byte {
            Some(byte) => write!(out, "{number} at byte {byte}: {words}"),
            None => write!(out, "{number}: {words}"),
        }
    }
}

impl Error for ShelfRefusal {}
