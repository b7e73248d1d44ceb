//! Files in which one byte is another: every byte of twenty files.

use crate::samples::files;
use crate::tally::Tally;

/// The files that get every other byte at each place; of longer ones, some are tried.
const SHORT: usize = 200;

/// The bytes that are tried in a long file beside those that differ by a bit: the ends of both
/// kinds of groups.
const ENDS: [u8; 6] = [0x00, 0x01, 0x7F, 0x80, 0x81, 0xFF];

/// The twenty files, each with another byte at each place.
pub fn of_one_byte(tally: &mut Tally) {
    for file in files() {
        for at in 0..file.len() {
            for byte in others(file[at], file.len()) {
                let mut file = file.clone();
                file[at] = byte;
                let _ = tally.open(&file);
            }
        }
    }
}

/// The bytes that are put where this one stands in a file of this length.
fn others(own: u8, length: usize) -> Vec<u8> {
    let others: Vec<u8> = match length {
        ..=SHORT => (0..=255).collect(),
        _ => (0..8).map(|bit| own ^ 1 << bit).chain(ENDS).collect(),
    };
    others.into_iter().filter(|byte| *byte != own).collect()
}
