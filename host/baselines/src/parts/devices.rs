//! The keyboard and the display.

use std::slice::IterMut;

/// The key at a position, 0 past the end.
#[inline(always)]
pub fn key(keys: &[u8], position: usize) -> u8 {
    keys.get(position).copied().unwrap_or(0)
}

/// Writes a word to what is left of the roll, if anything is.
#[inline(always)]
pub fn send(room: &mut IterMut<'_, u16>, word: u16) {
    if let Some(place) = room.next() {
        *place = word;
    }
}
