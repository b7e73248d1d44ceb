//! Listings judged by hand from the scope paper.

mod addresses;
mod parts;
mod successors;

use crate::answer::answer;
use cesca::Refusal;
use reference::Listing;

/// Checks that library and reference refuse a listing on this ground.
fn check(listing: &Listing, number: u8, place: u8) {
    assert_eq!(answer(listing), Err(Refusal::of_listing(number, place)));
}

/// Checks that library and reference admit a listing.
fn check_admitted(listing: &Listing) {
    assert_eq!(answer(listing), Ok(()));
}

/// Listing A with these instruction words instead of its own.
fn a_with_words(words: &[(u8, [u8; 2])]) -> Listing {
    words.iter().fold(Listing::a(), |listing, (at, word)| listing.with_word(*at, *word))
}

/// Listing A with these sheet words instead of its own.
fn a_with_sheet(words: &[(u8, u16)]) -> Listing {
    words.iter().fold(Listing::a(), |listing, (at, word)| listing.with_sheet(*at, *word))
}

#[test]
fn listing_a() {
    check_admitted(&Listing::a());
}

#[test]
fn the_marked_answers() {
    let m9 = Listing::a().with_list(&[0, 1, 4, 1]);
    assert_eq!(answer(&m9).map_err(|refusal| refusal.answer()), Err(271));
    let m10 = a_with_sheet(&[(2, 0xC000)]);
    assert_eq!(answer(&m10).map_err(|refusal| refusal.answer()), Err(272));
}

#[test]
fn deeper_needs_than_wanted_are_admitted() {
    check_admitted(&Listing::a().with_list(&[0, 255, 4, 254]));
    check(&Listing::a().with_list(&[0, 255, 4, 255]), 15, 1);
}

#[test]
fn free_bits_and_words_without_a_description_do_not_matter() {
    let free = [(1, [0xAB, 0x04]), (3, [0xFB, 0xFF]), (6, [0x8B, 0x77]), (7, [0xAF, 0x01])];
    check_admitted(&a_with_words(&free));
    check_admitted(&a_with_words(&[(8, [0xA4, 0x00]), (255, [0xFC, 0x00])]));
}

#[test]
fn described_code_that_nothing_reaches_is_judged() {
    let unreached = a_with_sheet(&[(8, 0x8000)]);
    check(&unreached.clone().with_word(8, [0xAC, 0x00]), 12, 8);
    check_admitted(&unreached.with_word(8, [0xA0, 0x00])); // jmp 0
}
