//! The words in which a sheet and a list that were drawn come back.

use crate::SHEET;

/// The sheet and the routine list that were drawn for banks.
#[derive(Clone, Debug, PartialEq, Eq)]
pub struct Drawing {
    /// The sheet, the low byte of each word first; 0 at addresses that aren't reached.
    pub sheet: [u8; SHEET],
    /// Entry and least need of each routine, the first being routine 0.
    pub list: Vec<u8>,
}

impl Drawing {
    /// The number of routines, 1 to 64.
    pub fn routines(&self) -> usize {
        self.list.len() / 2
    }
}
