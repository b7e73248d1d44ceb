//! The four buffers that an opener is lent to write to, inside guards.

use crate::memory::Guarded;
use crate::shelvers::{Opened, Opener};
use cesca::{BANK, MOST_LIST, SHEET};

/// The buffers' names.
const NAMES: [&str; 4] = ["opcodes", "arguments", "sheet", "list"];

/// What stands in each buffer that is still to be written to.
const OLD: [u8; 4] = [0x31, 0x32, 0x33, 0x34];

/// The lengths that the buffers must have.
pub const LENGTHS: [usize; 4] = [BANK, BANK, SHEET, MOST_LIST];

/// What stands behind a file that is lent: groups that would end a number which is cut off.
const BEHIND: [u8; 8] = [1; 8];

/// Opcodes, arguments, sheet and list, of any length.
#[derive(Clone, Debug, PartialEq, Eq)]
pub struct Buffers([Guarded<u8>; 4]);

impl Buffers {
    /// Buffers with these bytes.
    pub fn new(parts: [&[u8]; 4]) -> Buffers {
        Buffers(parts.map(|bytes| Guarded::new(bytes.iter().copied())))
    }

    /// Buffers of these lengths, still to be written to; no byte in them is 0.
    pub fn old(lengths: [usize; 4]) -> Buffers {
        let [opcodes, arguments, sheet, list] = [0, 1, 2, 3].map(|at| vec![OLD[at]; lengths[at]]);
        Buffers::new([&opcodes, &arguments, &sheet, &list])
    }

    /// What an opener answers on a file if it is lent these buffers, and what they then hold.
    pub fn lent(&self, opener: Opener, file: &[u8]) -> (Opened, Buffers) {
        let longer = [file, &BEHIND].concat();
        let mut after = self.clone();
        let [opcodes, arguments, sheet, list] = after.0.each_mut().map(Guarded::inner_mut);
        let answer = opener(&longer[..file.len()], opcodes, arguments, sheet, list);
        (answer, after)
    }

    /// What the buffers hold.
    pub fn parts(&self) -> [&[u8]; 4] {
        self.0.each_ref().map(Guarded::inner)
    }

    /// The places, guards included, where these buffers aren't as wanted.
    pub fn differences(&self, wanted: &Buffers) -> String {
        let buffers = NAMES.into_iter().zip(self.0.iter().zip(&wanted.0));
        let places = buffers.map(|(name, (own, wanted))| (name, own.differences(wanted)));
        let different = places.filter(|(_, places)| !places.is_empty());
        different.map(|(name, places)| format!("{name}: {}\n", places.join(", "))).collect()
    }
}
