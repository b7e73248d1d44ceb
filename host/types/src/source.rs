//! The words in which an assembled text comes back.

use crate::BANK;

/// The banks that a text assembles to; words after its last line are 00 00.
#[derive(Clone, Debug, PartialEq, Eq)]
pub struct Assembled {
    /// The bank of opcodes.
    pub opcodes: [u8; BANK],
    /// The bank of arguments.
    pub arguments: [u8; BANK],
    /// The words that the lines stand for, 0 to 256.
    pub words: usize,
}
