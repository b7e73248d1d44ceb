//! Listings of all shapes, shelved and opened again: every n with every number of routines, words
//! in which one part alone isn't 0, blank words between others.

use crate::checks::shown;
use crate::random::{each_case, Random};
use crate::samples::stored;
use crate::tally::Tally;
use cesca::{BANK, MOST_ROUTINES};
use reference::Listing;

/// Bytes at the edges of their groups.
const BYTES: [u8; 6] = [1, 2, 126, 127, 128, 255];

/// Sheet words at the edges of their groups.
const WORDS: [u16; 9] = [1, 127, 128, 255, 256, 16_383, 16_384, 32_768, 65_535];

/// Every n with every number of routines.
pub fn every_n(tally: &mut Tally) {
    let routines = |n| (1..=MOST_ROUTINES).map(move |routines| (n, routines));
    let shapes: Vec<(usize, usize)> = (0..=BANK).flat_map(routines).collect();
    let mut left = shapes.iter();
    each_case(shapes.len() as u64, |random| {
        let (n, routines) = left.next().expect("a shape for each case");
        let file = tally.shelve(&of_shape(*n, *routines, random));
        assert_eq!(n_of(&file), *n, "{}", shown(&file));
    });
}

/// The stored listings.
pub fn of_listings(tally: &mut Tally) {
    for listing in stored() {
        tally.shelve(&listing);
    }
}

/// The n of a file, which has one group or two.
fn n_of(file: &[u8]) -> usize {
    match *file {
        [low @ 128..=255, high, ..] => usize::from(low % 128) + 128 * usize::from(high),
        _ => file[0].into(),
    }
}

/// A listing with something at address n - 1 and nothing behind it, and with so many routines.
fn of_shape(n: usize, routines: usize, random: &mut Random) -> Listing {
    let list: Vec<u8> = (0..2 * routines).map(|_| byte(random)).collect();
    let mut listing = Listing::blank().with_list(&list);
    // Most words are blank in some listings, and few in others.
    let blanks = random.below(4);
    for at in (0..n).map(|at| at as u8) {
        if random.below(4) >= blanks || usize::from(at) + 1 == n {
            listing = with_something(listing, at, random);
        }
    }
    listing
}

/// The same with a word at an address: one part of it, or all.
fn with_something(listing: Listing, at: u8, random: &mut Random) -> Listing {
    let [opcode, argument] = [random.pick(&BYTES), random.pick(&BYTES)];
    let word = random.pick(&WORDS);
    match random.below(4) {
        0 => listing.with_word(at, [opcode, 0]),
        1 => listing.with_word(at, [0, argument]),
        2 => listing.with_sheet(at, word),
        _ => listing.with_word(at, [opcode, byte(random)]).with_sheet(at, word),
    }
}

/// A byte at the edge of its groups, or any.
fn byte(random: &mut Random) -> u8 {
    if random.once_in(2) {
        return random.byte();
    }
    random.pick(&BYTES)
}
