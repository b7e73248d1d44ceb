//! The papers' sizes and limits.

/// The bytes of a bank.
pub const BANK: usize = 256;

/// The bytes of a sheet, two for each address.
pub const SHEET: usize = 2 * BANK;

/// The most routines that a list can have.
pub const MOST_ROUTINES: usize = 64;

/// The most bytes of a routine list, two for each routine.
pub const MOST_LIST: usize = 2 * MOST_ROUTINES;

/// The most bytes that the desk reads: one past the longest listing.
pub const MOST_READ: usize = 2 * BANK + SHEET + MOST_LIST + 1;

/// The most steps that a run may be given.
pub const MOST_STEPS: u32 = 1_000_000;

/// The most seats of a room.
pub const MOST_SEATS: usize = 8;

/// The most steps of a turn's slice.
pub const MOST_SLICE: u32 = 1_000;

/// The bytes of a line of the page of busy addresses: 34 characters and a line feed.
pub const LINE: usize = 35;

/// The least bytes of a page's buffer: room for a line for each address.
pub const PAGE: usize = BANK * LINE;

/// The least bytes of a buffer for a shelf file: room for the longest, in which n, opcodes,
/// arguments, entries and needs have two groups each, sheet words three, and the number of routines
/// one.
pub const SHELF: usize = 2 + BANK * (2 + 2 + 3) + 1 + 2 * MOST_LIST;

/// The fastest clock that a time is told for, in Hz.
pub const FASTEST_CLOCK: u32 = 1_000_000;

/// The most cycles that a time is told for.
pub const MOST_CYCLES: u32 = 8_000_000;
