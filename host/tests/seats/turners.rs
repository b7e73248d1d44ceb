//! The turns that are held against each other.

use cesca::{Lent, Refusal, SeatLengths, Seats, Turn};

/// What a turn answers: what it came to, none if no seat could go on, or the number of what is
/// wrong.
pub type Answer = Result<Option<Turn>, u8>;

/// A turn of so many seats, with its slice, the seat from which on it is made, and what it is lent.
pub type Turner =
    fn(usize, u32, usize, Lent<'_>, SeatLengths, &mut Seats) -> Result<Option<Turn>, Refusal>;

/// The turns by name.
pub const TURNERS: [(&str, Turner); 2] =
    [("the library", cesca::turn), ("the reference", reference::turn)];
