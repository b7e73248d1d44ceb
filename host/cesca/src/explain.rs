//! What is wrong with a refused listing, in words.
//!
//! The library has decided by then, and is proved to decide rightly. Words are looked for that fit
//! the number and the place that it gave; where the listing shows nothing of the kind, the general
//! words stay.

mod address;
mod sheet;
mod successor;
#[cfg(test)]
mod tests;

use crate::Listing;
use address::Address;
use cesca_types::Refusal;

/// The refusal with what is wrong as far as the listing tells.
pub fn explained(listing: &Listing, refusal: Refusal) -> Refusal {
    let words = refusal.place().and_then(|place| words(listing, refusal.number(), place));
    match words {
        Some(words) => refusal.with_words(words),
        None => refusal,
    }
}

/// What is wrong at a place, if it is what the number stands for.
fn words(listing: &Listing, number: u8, place: u8) -> Option<String> {
    match number {
        4 => sheet::blank(listing, place),
        5 => sheet::no_routine(listing, place),
        6 => sheet::start(listing),
        7 => sheet::entry(listing, place),
        _ => Address::described(listing, place)?.words(number),
    }
}
