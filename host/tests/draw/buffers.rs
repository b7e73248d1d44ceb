//! The two buffers that a drawer is lent to write to, inside guards.

use crate::drawers::{Answer, Drawer};
use crate::memory::Guarded;

/// What stands in a sheet that is still to be drawn.
const OLD_SHEET: u8 = 0x5A;

/// What stands in a list that is still to be drawn.
const OLD_LIST: u8 = 0xC3;

/// A sheet and a list, of any length.
#[derive(Clone, Debug, PartialEq, Eq)]
pub struct Buffers {
    sheet: Guarded<u8>,
    list: Guarded<u8>,
}

impl Buffers {
    /// Buffers with these bytes.
    pub fn new(sheet: &[u8], list: &[u8]) -> Buffers {
        let guarded = |bytes: &[u8]| Guarded::new(bytes.iter().copied());
        Buffers { sheet: guarded(sheet), list: guarded(list) }
    }

    /// Buffers of these lengths, still to be drawn to; no byte in them is 0.
    pub fn old(sheet: usize, list: usize) -> Buffers {
        Buffers::new(&vec![OLD_SHEET; sheet], &vec![OLD_LIST; list])
    }

    /// What a drawer answers on two banks if it is lent these buffers, and what they then hold.
    pub fn lent(&self, drawer: Drawer, opcodes: &[u8], arguments: &[u8]) -> (Answer, Buffers) {
        let mut after = self.clone();
        let (sheet, list) = (after.sheet.inner_mut(), after.list.inner_mut());
        let answer = drawer(opcodes, arguments, sheet, list);
        (answer, after)
    }

    /// The sheet.
    pub fn sheet(&self) -> &[u8] {
        self.sheet.inner()
    }

    /// The list.
    pub fn list(&self) -> &[u8] {
        self.list.inner()
    }

    /// The places, guards included, where these buffers aren't as wanted.
    pub fn differences(&self, wanted: &Buffers) -> Vec<String> {
        let sheet = self.sheet.differences(&wanted.sheet).into_iter();
        let sheet = sheet.map(|place| format!("sheet {place}"));
        let list = self.list.differences(&wanted.list).into_iter();
        sheet.chain(list.map(|place| format!("list {place}"))).collect()
    }
}
