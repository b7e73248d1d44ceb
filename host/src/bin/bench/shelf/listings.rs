//! Listings to shelve, with as many groups in each number as it can have.

use cesca::{BANK, MOST_LIST};
use reference::Listing;

/// The bytes that such an address takes in a shelf file.
const ADDRESS: usize = 7;

/// The listing with the longest file.
pub fn full() -> Listing {
    filled(BANK, &[255; MOST_LIST])
}

/// The listing with half as many addresses and routines.
pub fn half() -> Listing {
    filled(BANK / 2, &[255; MOST_LIST / 2])
}

/// A listing whose file has this length, 20 to 2,051: as many addresses as there is room for, and
/// routines that take the rest.
pub fn of_length(length: usize) -> Listing {
    // n has two groups at most, the number of routines one, and a routine two bytes at least.
    let addresses = ((length - 2 - 1 - 2) / ADDRESS).min(BANK);
    let n = if addresses < 128 { 1 } else { 2 };
    let rest = length - n - ADDRESS * addresses - 1;
    let mut list = vec![0; 2 * rest.div_ceil(4)];
    let two_groups = rest - list.len();
    list[..two_groups].fill(255);
    filled(addresses, &list)
}

/// A listing with bytes 255 at its first addresses, and this list.
fn filled(addresses: usize, list: &[u8]) -> Listing {
    let mut listing = Listing::blank().with_list(list);
    listing.opcodes[..addresses].fill(255);
    listing.arguments[..addresses].fill(255);
    listing.sheet[..2 * addresses].fill(255);
    listing
}
