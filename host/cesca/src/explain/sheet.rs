//! The sheet's words by themselves and at the routines' entries: 4 to 7.

use crate::Listing;

/// 4: a word of an address that isn't described.
pub fn blank(listing: &Listing, at: u8) -> Option<String> {
    let word = listing.sheet_word(at);
    let bits = u16::from(word);
    (!word.described && bits != 0)
        .then(|| format!("address {at} is not described, yet its sheet word is {bits:04X}"))
}

/// 5: a routine that the list doesn't have.
pub fn no_routine(listing: &Listing, at: u8) -> Option<String> {
    let (word, routines) = (listing.sheet_word(at), listing.routines().len());
    let routine = word.routine;
    let plural = if routines == 1 { "" } else { "s" };
    (word.described && usize::from(routine) >= routines).then(|| {
        format!("address {at} names routine {routine}, and the list has {routines} routine{plural}")
    })
}

/// 6: the beginning of routine 0.
pub fn start(listing: &Listing) -> Option<String> {
    let entry = listing.routines().first()?.entry;
    (entry != 0).then(|| format!("routine 0 begins at {entry}"))
}

/// 7: what is wrong with the word of a routine's entry.
pub fn entry(listing: &Listing, routine: u8) -> Option<String> {
    let entry = listing.routines().get(usize::from(routine))?.entry;
    let word = listing.sheet_word(entry);
    let wrong = if !word.described {
        "is not described".to_string()
    } else if word.routine != routine {
        format!("is in routine {}", word.routine)
    } else if word.depth > 0 {
        format!("is at depth {}", word.depth)
    } else if word.settled {
        "marks V".to_string()
    } else {
        return None;
    };
    Some(format!("routine {routine} begins at {entry}, which {wrong}"))
}
