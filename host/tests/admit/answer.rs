//! The one answer of library and reference.

use crate::memory::Guarded;
use cesca::{admit, Refusal};
use reference::Listing;

/// The answer of library and reference, which write nothing to what they are lent.
pub fn answer(listing: &Listing) -> Result<(), Refusal> {
    let Listing { opcodes, arguments, sheet, list } = listing;
    let before = [opcodes, arguments, sheet, list].map(|part| Guarded::new(part.iter().copied()));
    let lent = before.clone();
    let [opcodes, arguments, sheet, list] = lent.each_ref().map(Guarded::inner);
    let found = admit(opcodes, arguments, sheet, list);
    assert_eq!(found, listing.admit(), "{listing:?}");
    for (part, wanted) in lent.iter().zip(&before) {
        assert!(part == wanted, "admission wrote {:?}", part.differences(wanted));
    }
    found
}
