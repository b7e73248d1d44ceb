//! A room: all that a turn is lent, each buffer inside guards.

use crate::memory::Memory;
use crate::turners::{Answer, Turner};
use cesca::{SeatLengths, Seats, MOST_SEATS};

/// The buffers of all seats, one behind another, and what each seat has beside them.
#[derive(Clone, Debug, PartialEq, Eq)]
pub struct Room {
    /// How many seats a turn is told that there are.
    pub count: usize,
    pub memory: Memory,
    pub lengths: SeatLengths,
    pub seats: Seats,
}

impl Room {
    /// What a turn of this room answers, and how it leaves the room.
    pub fn turned(&self, turner: Turner, slice: u32, from: usize) -> (Answer, Room) {
        let mut after = self.clone();
        let Room { count, memory, lengths, seats } = &mut after;
        let answer = turner(*count, slice, from, memory.lend(), *lengths, seats);
        (answer.map_err(|refusal| refusal.number()), after)
    }

    /// What isn't as wanted: places of the buffers, guards included, and seats.
    pub fn differences(&self, wanted: &Room) -> String {
        let seat = |at: usize| {
            let [found, wanted] = [self, wanted].map(|room| {
                let Seats { states, roll_positions } = &room.seats;
                (states[at], roll_positions[at])
            });
            (found != wanted).then(|| format!("seat {at}: {found:?}, wanted {wanted:?}\n"))
        };
        let seats: String = (0..MOST_SEATS).filter_map(seat).collect();
        self.memory.differences(&wanted.memory) + &seats
    }
}

/// What each seat has, and `other` at all places past the last.
pub fn seated<T: Copy>(own: impl IntoIterator<Item = T>, other: T) -> [T; MOST_SEATS] {
    let mut all = [other; MOST_SEATS];
    all.iter_mut().zip(own).for_each(|(place, own)| *place = own);
    all
}
