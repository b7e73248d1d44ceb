//! Why a text is not assembled.

use cesca_types::Refusal;
use std::error::Error;
use std::fmt::{self, Display, Formatter};

/// Why a text is not assembled, shown as `24 at line 3: ..` or, where no line is at fault, as
/// `26: ..`.
///
/// `==` compares the words too, so compare [`number`](SourceRefusal::number) and
/// [`line`](SourceRefusal::line) where what is wrong matters and not how it is put.
#[derive(Clone, Debug, PartialEq, Eq)]
pub struct SourceRefusal {
    refusal: Refusal,
    line: Option<usize>,
}

impl SourceRefusal {
    /// The refusal with what its number says in general.
    pub(crate) fn new(number: u8, line: Option<usize>) -> SourceRefusal {
        SourceRefusal { refusal: Refusal::of_call(number), line }
    }

    /// The same with other words for what is wrong.
    pub(crate) fn with_words(self, words: String) -> SourceRefusal {
        SourceRefusal { refusal: self.refusal.with_words(words), ..self }
    }

    /// The ground's number: 1 for the banks, 24 to 26 for the text.
    pub fn number(&self) -> u8 {
        self.refusal.number()
    }

    /// The line, the first being 1; none for 1 and 26.
    pub fn line(&self) -> Option<usize> {
        self.line
    }

    /// What is wrong.
    pub fn words(&self) -> &str {
        self.refusal.words()
    }
}

impl Display for SourceRefusal {
    fn fmt(&self, out: &mut Formatter<'_>) -> fmt::Result {
        let (number, words) = (self.number(), self.words());
        match self.line {
            Some(line) => write!(out, "{number} at line {line}: {words}"),
            None => write!(out, "{number}: {words}"),
        }
    }
}

impl Error for SourceRefusal {}
