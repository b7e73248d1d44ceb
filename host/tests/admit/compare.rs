//! Random listings, good, damaged and spoiled: the library's answers beside the reference's.

use crate::answer::answer;
use crate::counts::Counts;
use crate::damage::Damage;
use crate::filled::admitted;
use crate::random::{each_case, Random};
use cesca::{BANK, SHEET};
use reference::Listing;

/// The admitted listings drawn.
const CASES: u64 = 30_000;

/// A listing with several things changed.
fn spoiled(random: &mut Random, listing: &Listing) -> Listing {
    let mut listing = listing.clone();
    for _ in 0..2 + random.below(6) {
        let damage = random.pick(&Damage::ALL);
        // Lengths come before all else, so they are wrong less often.
        if damage != Damage::Length || random.once_in(8) {
            damage.apply(&mut listing, random);
        }
    }
    listing
}

/// A listing of any bytes; its sheet may be described throughout, with few routines.
fn any_bytes(random: &mut Random) -> Listing {
    let mut sheet = random.bytes(SHEET);
    let (set, kept) = random.pick(&[(0x00, 0xFF), (0x80, 0xFF), (0x80, 0xC1)]);
    for high in sheet.iter_mut().skip(1).step_by(2) {
        *high = *high & kept | set;
    }
    let routines = 1 + random.below(64) as usize;
    let mut list = random.bytes(2 * routines);
    list[0] &= random.pick(&[0x00, 0xFF]);
    Listing { opcodes: random.bytes(BANK), arguments: random.bytes(BANK), sheet, list }
}

#[test]
fn the_library_answers_as_the_reference() {
    let mut counts = Counts::new();
    each_case(CASES, |random| {
        let listing = admitted(random);
        let found = answer(&listing);
        assert_eq!(found, Ok(()), "{listing:?}");
        counts.plain(&found);
        for _ in 0..4 {
            let damage = random.pick(&Damage::ALL);
            let mut damaged = listing.clone();
            damage.apply(&mut damaged, random);
            counts.damaged(damage, &answer(&damaged));
        }
        counts.spoiled(&answer(&spoiled(random, &listing)));
        counts.plain(&answer(&any_bytes(random)));
    });
    counts.check();
}
