//! What both sides write and open, once it is found to be alike and in order.

use crate::buffers::{Buffers, LENGTHS};
use crate::memory::Guarded;
use crate::shelvers::{OPENERS, WRITERS};
use cesca::SHELF;
use reference::Listing;

/// What stands in a buffer that is still to be written to, and never at the end of a number.
const OLD: u8 = 0xE7;

/// The bytes of the buffer behind those that it must have.
const MORE: usize = 5;

/// The most bytes of a file that a failed check shows.
const MOST_SHOWN: usize = 100;

/// The beginning of a file, and its length.
pub fn shown(file: &[u8]) -> String {
    let (begin, length) = (&file[..file.len().min(MOST_SHOWN)], file.len());
    format!("{begin:02X?}, {length} bytes")
}

/// The file that both writers write for a listing; they keep what lies behind it.
pub fn written(listing: &Listing) -> Vec<u8> {
    let Listing { opcodes, arguments, sheet, list } = listing;
    let before = Guarded::new(vec![OLD; SHELF + MORE]);
    let [(library, found), (reference, wanted)] = WRITERS.map(|(_, writer)| {
        let mut after = before.clone();
        (writer(opcodes, arguments, sheet, list, after.inner_mut()), after)
    });
    assert_eq!(library, reference, "library and reference on {listing:?}");
    let differences = found.differences(&wanted);
    assert!(differences.is_empty(), "{listing:?}\nleaves {}", differences.join("; "));
    let (file, behind) = found.inner().split_at(library.expect("a file"));
    assert!(behind.iter().all(|byte| *byte == OLD), "{behind:02X?} behind that of {listing:?}");
    file.to_vec()
}

/// The listing that both openers open a file to, or number and byte, where both leave their
/// buffers.
pub fn opened(file: &[u8]) -> Result<Listing, (u8, usize)> {
    let before = Buffers::old(LENGTHS);
    let [(library, found), (reference, wanted)] =
        OPENERS.map(|(_, opener)| before.lent(opener, file));
    assert_eq!(library, reference, "library and reference on {}", shown(file));
    for left in [&found, &wanted] {
        let wanted = if library.is_ok() { &wanted } else { &before };
        assert!(left == wanted, "{}\nleaves {}", shown(file), left.differences(wanted));
    }
    let [opcodes, arguments, sheet, list] = found.parts();
    let (list, behind) = list.split_at(2 * library?);
    assert!(behind.iter().all(|byte| *byte == 0), "{behind:?} behind the list of {}", shown(file));
    let [opcodes, arguments, sheet, list] = [opcodes, arguments, sheet, list].map(<[u8]>::to_vec);
    Ok(Listing { opcodes, arguments, sheet, list })
}
