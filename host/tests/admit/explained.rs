//! Random listings that are refused: the words are found for the library's number and place.

use crate::answer::answer;
use crate::damage::Damage;
use crate::filled::admitted;
use crate::random::each_case;
use cesca::Refusal;
use reference::Listing;

/// The admitted listings drawn, each damaged in every way.
const CASES: u64 = 4_000;

/// Why the library refuses the listing in a file.
fn refusal(listing: &Listing) -> Option<Refusal> {
    let listing = cesca::Listing::from_bytes(&listing.file());
    listing.and_then(|listing| listing.admit()).err()
}

/// The words of a refusal, once number and place are found to be these and the words its own.
fn words(told: Refusal, general: Refusal) -> String {
    assert_eq!((told.number(), told.place()), (general.number(), general.place()), "{told}");
    assert_ne!(told, general, "no words are found");
    told.words().to_string()
}

#[test]
fn every_refusal_is_explained() {
    let mut met = [0; 17];
    let mut ends = [0; 4];
    each_case(CASES, |random| {
        let listing = admitted(random);
        // A length that is changed moves the parts of the file behind it.
        for damage in Damage::ALL.into_iter().filter(|damage| *damage != Damage::Length) {
            let mut damaged = listing.clone();
            damage.apply(&mut damaged, random);
            let Err(general) = answer(&damaged) else { continue };
            let number = usize::from(general.number());
            let words = words(refusal(&damaged).expect("a refusal"), general);
            met[number] += 1;
            let kinds = ["described", "instead of", "is due", "unsettled"];
            for (kind, count) in kinds.iter().zip(&mut ends) {
                *count += u32::from(number == 16 && words.contains(kind));
            }
        }
    });
    assert!(met[4..].iter().chain(&ends).all(|count| *count >= 10), "{met:?} {ends:?}");
}
