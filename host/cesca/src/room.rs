//! Up to eight boards that take turns.

mod seat;
#[cfg(test)]
mod tests;

use crate::turns::turn;
use crate::Admitted;
use cesca_types::{Lent, Refusal, SeatLengths, Seats, Turn, BANK, MOST_SEATS};
pub use seat::Seat;
use std::iter;

/// A room: up to eight boards, each with an admitted listing, that take turns.
///
/// What is proved of an admitted listing's runs holds at its seat: state, banks and roll are those
/// of running it alone for as many steps as its slices have together.
///
/// ```
/// # fn main() -> Result<(), Box<dyn std::error::Error>> {
/// use cesca::{Listing, Room, Stop};
///
/// let banks = cesca::assemble(b"loop: inc R0\nmov OUT, R0\njmp loop\n")?;
/// let counter = Listing::from_banks(banks.opcodes, banks.arguments)?.admit()?;
/// let banks = cesca::assemble(b"mov LCD, 72\nmov LCD, 105\nhlt\n")?;
/// let greeting = Listing::from_banks(banks.opcodes, banks.arguments)?.admit()?;
///
/// let mut room = Room::new();
/// assert_eq!(room.add(&counter, &[], 0)?, 0);
/// assert_eq!(room.add(&greeting, &[], 2)?, 1);
/// let turns = [room.turn(30)?, room.turn(30)?, room.turn(30)?].map(Option::unwrap);
/// assert_eq!(turns.map(|turn| turn.seat), [0, 1, 0]);
/// assert_eq!(turns[1].stop, Stop::Halted);
///
/// let outs: Vec<u8> = room.seats().map(|seat| seat.state().out).collect();
/// assert_eq!(outs, [20, 0]);
/// assert_eq!(room.seat(1).unwrap().roll(), [72, 105]);
/// # Ok(())
/// # }
/// ```
#[derive(Clone, Debug, PartialEq, Eq)]
pub struct Room {
    opcodes: Vec<u8>,
    arguments: Vec<u8>,
    keys: Vec<u8>,
    ram: Vec<u8>,
    stack: Vec<u8>,
    rolls: Vec<u16>,
    lengths: SeatLengths,
    seats: Seats,
    /// The seat that the next turn begins from.
    next: usize,
}

impl Room {
    /// A room without a seat, whose first turn begins from seat 0.
    pub fn new() -> Room {
        Room {
            opcodes: Vec::new(),
            arguments: Vec::new(),
            keys: Vec::new(),
            ram: Vec::new(),
            stack: Vec::new(),
            rolls: Vec::new(),
            lengths: SeatLengths::default(),
            seats: Seats::start(),
            next: 0,
        }
    }

    /// The number of a new seat for a listing, behind those that there are; or the refusal 28 of a
    /// ninth one, which changes nothing.
    ///
    /// The seat is in the start state, its data and stack are 0, and its roll has room for so many
    /// words. The other seats are as they were, in mid-run too.
    ///
    /// # Panics
    ///
    /// If the rolls of all seats are more than a `Vec` can hold; the room is then as it was. As
    /// anywhere, the program is aborted if there is no memory left for less.
    pub fn add(&mut self, listing: &Admitted, keys: &[u8], roll: usize) -> Result<usize, Refusal> {
        let number = self.free_seat()?;
        // The roll first: its length alone may be any number, and if no `Vec` can hold so much,
        // nothing is changed yet.
        self.rolls.extend(iter::repeat_n(0, roll));
        self.keys.extend(keys);
        self.opcodes.extend(listing.listing().opcodes());
        self.arguments.extend(listing.listing().arguments());
        self.ram.extend([0; BANK]);
        self.stack.extend([0; BANK]);
        self.lengths.keys[number] = keys.len();
        self.lengths.rolls[number] = roll;
        Ok(number)
    }

    /// The number that a new seat would have, or the refusal 28 if all seats are taken.
    pub fn free_seat(&self) -> Result<usize, Refusal> {
        let number = self.len();
        if number == MOST_SEATS {
            let words = "all 8 seats of the room are taken";
            return Err(Refusal::of_call(28).with_words(words.to_string()));
        }
        Ok(number)
    }

    /// One turn, from the seat after the one that ran last: the first seat that can go on runs for
    /// at most `slice` steps. None if no seat can go on.
    ///
    /// A refusal changes nothing: 28 for a room without a seat, then 29 for a slice of 0 or over
    /// [`MOST_SLICE`](crate::MOST_SLICE).
    pub fn turn(&mut self, slice: u32) -> Result<Option<Turn>, Refusal> {
        self.turn_from(self.next, slice)
    }

    /// The same from any seat on, modulo the seats; the turn after it begins behind the seat that
    /// ran.
    pub fn turn_from(&mut self, from: usize, slice: u32) -> Result<Option<Turn>, Refusal> {
        let count = self.len();
        let Room { opcodes, arguments, keys, ram, stack, rolls, lengths, seats, .. } = self;
        let lent = Lent { opcodes, arguments, keys, ram, stack, roll: rolls };
        let turn = turn(count, slice, from, lent, *lengths, seats)?;
        if let Some(Turn { next, .. }) = turn {
            self.next = next;
        }
        Ok(turn)
    }

    /// The number of seats.
    pub fn len(&self) -> usize {
        self.opcodes.len() / BANK
    }

    /// Whether there is no seat.
    pub fn is_empty(&self) -> bool {
        self.len() == 0
    }

    /// The seat that the next turn begins from.
    pub fn next_seat(&self) -> usize {
        self.next
    }

    /// The seat of this number, if there is one.
    pub fn seat(&self, number: usize) -> Option<Seat<'_>> {
        (number < self.len()).then(|| Seat::new(self, number))
    }

    /// The seats in their order.
    pub fn seats(&self) -> impl Iterator<Item = Seat<'_>> {
        (0..self.len()).map(|number| Seat::new(self, number))
    }
}

impl Default for Room {
    fn default() -> Room {
        Room::new()
    }
}
