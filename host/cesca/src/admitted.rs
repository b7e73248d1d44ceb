//! Listings that were admitted.

use crate::{Board, Listing};

/// A listing that was admitted; only [`Listing::admit`] makes one.
#[derive(Clone, Debug, PartialEq, Eq)]
pub struct Admitted {
    listing: Listing,
}

impl Admitted {
    /// The listing, which the library has just admitted.
    pub(crate) fn new(listing: &Listing) -> Admitted {
        Admitted { listing: listing.clone() }
    }

    /// The most bytes that the listing ever has on the stack: routine 0's need.
    pub fn need(&self) -> u8 {
        // A listing has a routine at least.
        self.listing.routines()[0].need
    }

    /// The listing.
    pub fn listing(&self) -> &Listing {
        &self.listing
    }

    /// A board that is ready to run the listing.
    pub fn board(&self) -> Board {
        Board::new(&self.listing)
    }
}
