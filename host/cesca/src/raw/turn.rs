//! The export for turns, and its answer read into this crate's words.

use super::run::stop;
use super::unknown;
use cesca_types::{Lent, Refusal, SeatLengths, Seats, Turn};
use std::mem::MaybeUninit;

/// A turn's answer: 0 and whether a seat ran, with its slice's report, that seat and the seat after
/// it; or a refusal's number and zeros. Then the seats, as they are after the turn.
#[repr(C)]
pub struct TurnNumbers {
    number: u8,
    ran: bool,
    stop: u8,
    steps: u32,
    cycles: u32,
    seat: usize,
    next: usize,
    seats: MaybeUninit<Seats>,
}

extern "C" {
    fn cesca_turn(
        count: usize,
        slice: u32,
        from: usize,
        opcodes: *const u8,
        opcodes_len: usize,
        arguments: *const u8,
        arguments_len: usize,
        keys: *const u8,
        keys_len: usize,
        ram: *mut u8,
        ram_len: usize,
        stack: *mut u8,
        stack_len: usize,
        rolls: *mut u16,
        rolls_len: usize,
        lengths: SeatLengths,
        seats: MaybeUninit<Seats>,
    ) -> TurnNumbers;
}

/// The library's answer on a turn of `count` seats.
///
/// # Safety
///
/// The seats are initialised; only their V may be a number that is no value of V.
#[inline]
pub unsafe fn call(
    count: usize,
    slice: u32,
    from: usize,
    lent: Lent<'_>,
    lengths: SeatLengths,
    seats: MaybeUninit<Seats>,
) -> TurnNumbers {
    let Lent { opcodes, arguments, keys, ram, stack, roll } = lent;
    // SAFETY: each pointer comes with the length of the slice behind it, and the slices written
    // to are borrowed for writing during the call, so they overlap nothing. The library takes any
    // number for V. By its contract `ran` comes back as 0 or 1, and of the seat that ran so do
    // `halted` and the flags, and V as one of its values; the other seats come back as they were
    // lent.
    unsafe {
        cesca_turn(
            count,
            slice,
            from,
            opcodes.as_ptr(),
            opcodes.len(),
            arguments.as_ptr(),
            arguments.len(),
            keys.as_ptr(),
            keys.len(),
            ram.as_mut_ptr(),
            ram.len(),
            stack.as_mut_ptr(),
            stack.len(),
            roll.as_mut_ptr(),
            roll.len(),
            lengths,
            seats,
        )
    }
}

impl TurnNumbers {
    /// The seats as they are after the turn.
    #[inline]
    pub fn seats(&self) -> &MaybeUninit<Seats> {
        &self.seats
    }

    /// The turn for 0, none if no seat could go on, else the refusal of that number.
    #[inline]
    pub fn outcome(&self) -> Result<Option<Turn>, Refusal> {
        let TurnNumbers { number, ran, steps, cycles, seat, next, .. } = *self;
        match (number, ran) {
            (0, true) => Ok(Some(Turn { seat, next, stop: stop(self.stop), steps, cycles })),
            (0, false) => Ok(None),
            (17 | 18 | 28 | 29, false) => Err(Refusal::of_call(number)),
            _ => unknown("refusal of a turn", number),
        }
    }
}

#[cfg(test)]
mod tests;
