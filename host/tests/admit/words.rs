//! Every opcode, under each kind of sheet word and before each kind.

use crate::answer::answer;
use reference::Listing;

/// `hlt` wherever something is described, so that only the word put at 6 or 255 is judged.
const STILL: &str = "
    routine 0 at 0 need 3
    routine 1 at 4 need 1
    routine 2 at 13 need 0

    0   8000  F8 00  hlt
    1   C000  F8 00  hlt
    2   8001  F8 00  hlt
    4   8100  F8 00  hlt
    8   8101  F8 00  hlt
    9   C101  F8 00  hlt
    10  C100  F8 00  hlt
    13  8200  F8 00  hlt
";

/// Sheet words for the address that is judged.
const OWN: [u16; 7] = [0x8100, 0xC100, 0x8101, 0xC101, 0x8102, 0x8000, 0xC001];

/// Sheet words for the next address.
const NEXT: [u16; 8] = [0x0000, 0x8100, 0xC100, 0x8101, 0xC101, 0x8000, 0xC001, 0x8002];

/// Every opcode with each function and with targets of every kind.
fn words() -> impl Iterator<Item = [u8; 2]> {
    let arguments = (0..16).chain((16..=240).step_by(16));
    arguments.flat_map(|argument| (0..=255).map(move |opcode| [opcode, argument]))
}

/// Checks that library and reference agree on a listing in which only this address can be wrong.
fn check(listing: &Listing, at: u8) {
    let found = answer(listing);
    let elsewhere = found.as_ref().is_err_and(|refusal| refusal.place() != Some(at));
    assert!(!elsewhere, "{found:?}");
}

#[test]
fn every_word_before_another() {
    for (own, next) in OWN.into_iter().flat_map(|own| NEXT.map(|next| (own, next))) {
        let still = Listing::read(STILL).with_sheet(6, own).with_sheet(7, next);
        let still = still.with_word(7, [0xF8, 0x00]);
        for word in words() {
            check(&still.clone().with_word(6, word), 6);
        }
    }
}

#[test]
fn every_word_at_the_last_address() {
    for own in OWN {
        let still = Listing::read(STILL).with_sheet(255, own);
        for word in words() {
            check(&still.clone().with_word(255, word), 255);
        }
    }
}
