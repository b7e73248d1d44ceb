//! The stored inputs, made from listings that a reader can follow.

mod admitted;
mod lengths;
mod refused;

use reference::Listing;

/// A case: its name and the input.
pub type Case = (&'static str, Vec<u8>);

/// A case of a whole listing.
type Named = (&'static str, Listing);

/// All cases.
pub fn cases() -> Vec<Case> {
    let listings = admitted::cases().into_iter().chain(refused::cases());
    listings.map(|(name, listing)| (name, listing.file())).chain(lengths::cases()).collect()
}

/// Listing A with this instruction word at an address.
fn word(at: u8, word: [u8; 2]) -> Listing {
    Listing::a().with_word(at, word)
}

/// Listing A with this sheet word at an address.
fn sheet(at: u8, word: u16) -> Listing {
    Listing::a().with_sheet(at, word)
}

/// Listing A with this list.
fn list(list: &[u8]) -> Listing {
    Listing::a().with_list(list)
}

/// Listing A with this sheet word and this instruction word at 255.
fn last(sheet_word: u16, instruction: [u8; 2]) -> Listing {
    sheet(255, sheet_word).with_word(255, instruction)
}
