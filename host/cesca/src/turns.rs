//! Turns of a room for people who keep their own buffers.

mod explain;
#[cfg(test)]
mod tests;

use crate::raw;
use cesca_types::{Lent, Refusal, SeatLengths, Seats, Turn};
use explain::{explained, Call, Sizes};
use std::mem::MaybeUninit;

/// One turn of the first `count` seats, from seat `from` on (modulo the seats): the first of them
/// whose next step no stop other than spent prevents runs for at most `slice` steps. None if no
/// seat can go on; then everything is as it was.
///
/// The seats' banks, keys and rolls lie one behind another in what is lent: 256 bytes of each bank
/// a seat, and keys and roll by their lengths. A seat's roll is continued at its position.
///
/// A refusal leaves everything as it was, and tells what is wrong: first seats that are 0 or over
/// [`MOST_SEATS`] (28), then a slice of 0 or over [`MOST_SLICE`] (29), then a buffer that the seats
/// don't fill exactly (17), then a key position or a roll position of any seat past its end (18).
///
/// ```
/// use cesca::{Lent, SeatLengths, Seats, Stop};
///
/// # fn main() -> Result<(), Box<dyn std::error::Error>> {
/// let one = cesca::assemble(b"mov R0, IN\nmov OUT, R0\nhlt\n")?;
/// let other = cesca::assemble(b"loop: mov LCD, 65\njmp loop\n")?;
/// let opcodes = [one.opcodes, other.opcodes].concat();
/// let arguments = [one.arguments, other.arguments].concat();
/// let (mut ram, mut stack, mut rolls) = ([0; 512], [0; 512], [0; 3]);
/// let mut lengths = SeatLengths::default();
/// (lengths.keys[0], lengths.rolls[1]) = (2, 3); // for seat 0 two keys, for seat 1 three words
/// let mut seats = Seats::start();
/// let mut turn = |from| {
///     let lent = Lent {
///         opcodes: &opcodes,
///         arguments: &arguments,
///         keys: &[7, 8],
///         ram: &mut ram,
///         stack: &mut stack,
///         roll: &mut rolls,
///     };
///     cesca::turn(2, 1_000, from, lent, lengths, &mut seats)
/// };
/// let first = turn(0)?.expect("seat 0 can go on");
/// assert_eq!((first.seat, first.next, first.stop, first.steps), (0, 1, Stop::Halted, 3));
/// let second = turn(first.next)?.expect("seat 1 can go on");
/// assert_eq!((second.seat, second.next, second.stop, second.steps), (1, 0, Stop::Full, 6));
/// assert_eq!(turn(second.next)?, None);
/// assert_eq!((seats.states[0].out, rolls), (7, [65; 3]));
/// # Ok(())
/// # }
/// ```
///
/// [`MOST_SEATS`]: crate::MOST_SEATS
/// [`MOST_SLICE`]: crate::MOST_SLICE
// Inlined, so that what is lent goes to the library without being stored and loaded again.
#[inline]
pub fn turn(
    count: usize,
    slice: u32,
    from: usize,
    lent: Lent<'_>,
    lengths: SeatLengths,
    seats: &mut Seats,
) -> Result<Option<Turn>, Refusal> {
    let sizes = Sizes::of(&lent);
    let lent_seats = MaybeUninit::new(*seats);
    // SAFETY: the seats are whole ones.
    let answer = unsafe { raw::turn::call(count, slice, from, lent, lengths, lent_seats) };
    // SAFETY: by the library's contract all eight places come back as they were lent, but for that
    // of the seat that ran, which is whole.
    *seats = unsafe { answer.seats().assume_init() };
    match answer.outcome() {
        Err(refusal) => explained(refusal, &Call { count, slice, sizes, lengths, seats }),
        answer => answer,
    }
}
