//! Listings with something changed.

use crate::random::Random;
use reference::{Listing, SheetWord};

/// What is changed.
#[derive(Clone, Copy, Debug, PartialEq, Eq)]
pub enum Damage {
    /// A described address's opcode.
    Opcode,
    /// A described address's argument.
    Argument,
    /// A described address, which isn't described then.
    Described,
    /// The mark of V at a described address.
    Settled,
    /// The routine of a described address.
    Routine,
    /// The depth of a described address.
    Depth,
    /// The whole sheet word of any address.
    Word,
    /// A routine's entry.
    Entry,
    /// A routine's need.
    Need,
    /// The length of a part.
    Length,
    /// A bit anywhere.
    Bit,
}

impl Damage {
    /// All kinds.
    #[rustfmt::skip]
    pub const ALL: [Damage; 11] = {
        use Damage::*;
        [Opcode, Argument, Described, Settled, Routine, Depth, Word, Entry, Need, Length, Bit]
    };

    /// Changes a listing, whatever was changed before.
    pub fn apply(self, listing: &mut Listing, random: &mut Random) {
        let at = address(&listing.sheet, random);
        match self {
            Damage::Opcode => replace(&mut listing.opcodes, at, random),
            Damage::Argument => replace(&mut listing.arguments, at, random),
            Damage::Entry => change(&mut listing.list, 0, random),
            Damage::Need => change(&mut listing.list, 1, random),
            Damage::Length => resize(random.pick(&PARTS)(listing), random),
            Damage::Bit => flip(random.pick(&PARTS)(listing), random),
            Damage::Word => self.apply_to_sheet(&mut listing.sheet, random.byte(), random),
            _ => self.apply_to_sheet(&mut listing.sheet, at, random),
        }
    }

    /// Changes the sheet's word for an address.
    fn apply_to_sheet(self, sheet: &mut [u8], at: u8, random: &mut Random) {
        let start = 2 * usize::from(at);
        let Some(bytes) = sheet.get_mut(start..start + 2) else { return };
        let word = SheetWord(u16::from_le_bytes([bytes[0], bytes[1]]));
        let (routine, depth, settled) = (word.routine(), word.depth(), word.settled());
        let changed = match self {
            Damage::Described => SheetWord(0),
            Damage::Settled => SheetWord::new(routine, depth, !settled),
            Damage::Routine => SheetWord::new(near(routine, random), depth, settled),
            Damage::Depth => SheetWord::new(routine, near(depth, random), settled),
            _ => SheetWord(random.number() as u16),
        };
        bytes.copy_from_slice(&changed.0.to_le_bytes());
    }
}

/// The parts of a listing.
const PARTS: [fn(&mut Listing) -> &mut Vec<u8>; 4] = [
    |listing| &mut listing.opcodes,
    |listing| &mut listing.arguments,
    |listing| &mut listing.sheet,
    |listing| &mut listing.list,
];

/// A described address, the last one often; 0 if none is found soon.
fn address(sheet: &[u8], random: &mut Random) -> u8 {
    let described = |at: &u8| sheet.get(2 * usize::from(*at) + 1).is_some_and(|high| *high > 127);
    let last = random.once_in(8).then_some(255);
    let tries = (0..32).map(|_| random.byte());
    let mut tries = last.into_iter().chain(tries);
    tries.find(described).unwrap_or(0)
}

/// A byte close to this one, at an edge, or any.
fn near(byte: u8, random: &mut Random) -> u8 {
    match random.below(6) {
        0 | 1 => byte.wrapping_add(1),
        2 | 3 => byte.wrapping_sub(1),
        4 => random.pick(&[0, 255]),
        _ => random.byte(),
    }
}

/// Changes one byte of a list, the entry or the need of a routine.
fn change(list: &mut [u8], part: usize, random: &mut Random) {
    let routine = random.below(list.len().div_ceil(2) as u32 + 1) as usize;
    if let Some(byte) = list.get_mut(2 * routine + part) {
        *byte = near(*byte, random);
    }
}

/// Replaces a byte.
fn replace(bytes: &mut [u8], at: u8, random: &mut Random) {
    if let Some(byte) = bytes.get_mut(usize::from(at)) {
        *byte = random.byte();
    }
}

/// Flips a bit.
fn flip(bytes: &mut [u8], random: &mut Random) {
    let at = random.below(bytes.len() as u32) as usize;
    if let Some(byte) = bytes.get_mut(at) {
        *byte ^= 1 << random.below(8);
    }
}

/// Gives a part another length, its bytes kept or continued with others.
fn resize(part: &mut Vec<u8>, random: &mut Random) {
    let length = match random.below(4) {
        0 => part.len().saturating_sub(1),
        1 => part.len() + 1,
        2 => part.len() + 2,
        _ => random.pick(&[0, 1, 2, 127, 128, 129, 130, 255, 256, 511, 512, 513, 1_024]),
    };
    let kept = part.len().min(length);
    part.truncate(kept);
    part.extend(random.bytes(length - kept));
}
