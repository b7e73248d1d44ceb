//! Why a text is no listing.

use std::error::Error;
use std::fmt::{self, Display, Formatter};

/// Why a text is no listing, shown as `line 3: ..`.
#[derive(Clone, Debug, PartialEq, Eq)]
pub struct TextError {
    /// The line, the first being 1.
    pub line: usize,
    /// What is wrong with it.
    pub reason: String,
}

impl Display for TextError {
    fn fmt(&self, out: &mut Formatter<'_>) -> fmt::Result {
        write!(out, "line {}: {}", self.line, self.reason)
    }
}

impl Error for TextError {}
