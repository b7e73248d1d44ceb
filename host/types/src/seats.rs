//! The words of a room: up to eight boards that take turns on buffers that they share.

use crate::{State, Stop, MOST_SEATS};

/// What the seats of a room have beside the buffers, laid out as the library has it. Places past the
/// last seat are not looked at, and are kept.
#[repr(C)]
#[derive(Clone, Copy, Debug, PartialEq, Eq)]
pub struct Seats {
    /// The state of each seat.
    pub states: [State; MOST_SEATS],
    /// The words that stand on each seat's roll, and so the place of its next one.
    pub roll_positions: [usize; MOST_SEATS],
}

/// How long each seat's part of the keys and of the rolls is, laid out as the library has it. Places
/// past the last seat are not looked at.
#[repr(C)]
#[derive(Clone, Copy, Debug, Default, PartialEq, Eq)]
pub struct SeatLengths {
    /// The keys of each seat.
    pub keys: [usize; MOST_SEATS],
    /// The words of each seat's roll.
    pub rolls: [usize; MOST_SEATS],
}

/// What a turn in which a seat ran comes to.
#[derive(Clone, Copy, Debug, PartialEq, Eq)]
pub struct Turn {
    /// The seat that ran.
    pub seat: usize,
    /// The seat after it, 0 after the last.
    pub next: usize,
    /// Why it made no further step in this turn.
    pub stop: Stop,
    /// The steps made in this turn.
    pub steps: u32,
    /// The cycles of these steps.
    pub cycles: u32,
}

impl Seats {
    /// Seats in the start state, with nothing on their rolls.
    pub fn start() -> Seats {
        Seats { states: [State::start(); MOST_SEATS], roll_positions: [0; MOST_SEATS] }
    }
}
