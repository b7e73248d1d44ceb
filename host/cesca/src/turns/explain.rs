//! What is wrong with a turn that is refused, in words.
//!
//! The library has decided by then. Words are looked for that fit the number that it gave; where
//! the call shows nothing of the kind, the general words stay.

use crate::text::{bytes, counted};
use cesca_types::{Lent, Refusal, SeatLengths, Seats, Turn, BANK, MOST_SEATS, MOST_SLICE};

/// How long the buffers are that a turn is lent.
pub struct Sizes {
    opcodes: usize,
    arguments: usize,
    keys: usize,
    ram: usize,
    stack: usize,
    rolls: usize,
}

/// What a turn is called with, but for what stands in the buffers.
pub struct Call<'a> {
    /// The number of seats.
    pub count: usize,
    /// The steps of the slice.
    pub slice: u32,
    /// How long the buffers are.
    pub sizes: Sizes,
    /// How long each seat's keys and roll are.
    pub lengths: SeatLengths,
    /// The states and the roll positions.
    pub seats: &'a Seats,
}

/// The refusal with what is wrong as far as the call tells, handed back as the whole answer of a
/// turn: a refusal alone would have to be put where a turn may stand, and every turn copied once
/// more.
#[cold]
#[inline(never)]
pub fn explained(refusal: Refusal, call: &Call<'_>) -> Result<Option<Turn>, Refusal> {
    let words = match refusal.number() {
        17 => call.wrong_bank().or_else(|| call.wrong_sum()),
        18 => (0..call.count.min(MOST_SEATS)).find_map(|seat| call.wrong_position(seat)),
        28 => call.wrong_count(),
        29 => call.wrong_slice(),
        _ => None,
    };
    Err(match words {
        Some(words) => refusal.with_words(words),
        None => refusal,
    })
}

impl Sizes {
    /// How long the buffers are that are lent.
    #[inline]
    pub fn of(lent: &Lent<'_>) -> Sizes {
        Sizes {
            opcodes: lent.opcodes.len(),
            arguments: lent.arguments.len(),
            keys: lent.keys.len(),
            ram: lent.ram.len(),
            stack: lent.stack.len(),
            rolls: lent.roll.len(),
        }
    }
}

impl Call<'_> {
    /// The first buffer of banks that hasn't one for each seat.
    fn wrong_bank(&self) -> Option<String> {
        let Sizes { opcodes, arguments, ram, stack, .. } = self.sizes;
        let buffers =
            [("opcode", opcodes), ("argument", arguments), ("data", ram), ("stack", stack)];
        let due = BANK.checked_mul(self.count);
        let (name, size) = buffers.into_iter().find(|(_, size)| Some(*size) != due)?;
        let seats = match self.count {
            1 => "1 seat".to_string(),
            count => format!("each of {count} seats"),
        };
        Some(format!("the {name} bank's buffer has {}, not 256 for {seats}", bytes(size)))
    }

    /// The first of keys and rolls whose lengths don't add up to their buffer.
    fn wrong_sum(&self) -> Option<String> {
        let SeatLengths { keys, rolls } = self.lengths;
        let buffers = [("keys", keys, self.sizes.keys), ("rolls", rolls, self.sizes.rolls)];
        let sums = buffers.map(|(name, lengths, size)| (name, self.sum(lengths), size));
        let (name, sum, size) = sums.into_iter().find(|(_, sum, size)| *sum != *size as u128)?;
        Some(format!("the lengths of the {name} add up to {sum}, and their buffer has {size}"))
    }

    /// The sum of the seats' lengths, which may be more than a `usize` has.
    fn sum(&self, lengths: [usize; MOST_SEATS]) -> u128 {
        lengths.into_iter().take(self.count).map(|length| length as u128).sum()
    }

    /// The position of a seat that is past its end: that in the keys, or that in the roll.
    fn wrong_position(&self, seat: usize) -> Option<String> {
        let (position, keys) = (self.seats.states[seat].position, self.lengths.keys[seat]);
        let (words, roll) = (self.seats.roll_positions[seat], self.lengths.rolls[seat]);
        let past = [("key", position, keys, "key"), ("roll", words, roll, "word")];
        let (name, position, end, one) =
            past.into_iter().find(|(_, position, end, _)| position > end)?;
        let end = counted(end, one);
        Some(format!("seat {seat}'s {name} position is {position}, past the end of its {end}"))
    }

    /// The number of seats, if it is none of those there may be.
    fn wrong_count(&self) -> Option<String> {
        let count = self.count;
        let wrong = !(1..=MOST_SEATS).contains(&count);
        wrong.then(|| format!("the number of seats is {count}, not 1 to 8"))
    }

    /// The slice, if it is none of those there may be.
    fn wrong_slice(&self) -> Option<String> {
        let slice = self.slice;
        let wrong = !(1..=MOST_SLICE).contains(&slice);
        wrong.then(|| format!("the slice is {slice} steps, not 1 to 1,000"))
    }
}
