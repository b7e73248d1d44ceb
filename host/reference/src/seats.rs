//! Turns round the seats of a room (02, request 5): each is a run of one seat for a slice, on the
//! seat's own part of buffers that all share.

use super::machine::next_stop;
use super::run;
use cesca_types::{Lent, Refusal, Report, SeatLengths, Seats, Turn, BANK, MOST_SEATS, MOST_SLICE};

/// One turn of the first `count` seats: from seat `from` on, modulo the seats, the first that can
/// go on runs for at most `slice` steps. None if none can go on, or why there is no turn.
pub fn turn(
    count: usize,
    slice: u32,
    from: usize,
    mut lent: Lent<'_>,
    lengths: SeatLengths,
    seats: &mut Seats,
) -> Result<Option<Turn>, Refusal> {
    check(count, slice, &lent, &lengths, seats)?;
    let first = from % count;
    let mut round = (first..count).chain(0..first);
    let goes_on = |seat: &usize| {
        next_stop(part(&mut lent, &lengths, seats, *seat), seats.states[*seat]).is_none()
    };
    let Some(seat) = round.find(goes_on) else { return Ok(None) };
    let part = part(&mut lent, &lengths, seats, seat);
    let Report { stop, steps, cycles, words, state } = run(part, slice, seats.states[seat])?;
    seats.states[seat] = state;
    seats.roll_positions[seat] += words;
    let next = if seat + 1 == count { 0 } else { seat + 1 };
    Ok(Some(Turn { seat, next, stop, steps, cycles }))
}

/// What a seat runs on: its banks and keys, and what is left of its roll.
fn part<'a>(lent: &'a mut Lent<'_>, lengths: &SeatLengths, seats: &Seats, seat: usize) -> Lent<'a> {
    let bank = seat * BANK..(seat + 1) * BANK;
    let keys: usize = lengths.keys[..seat].iter().sum();
    let roll: usize = lengths.rolls[..seat].iter().sum();
    Lent {
        opcodes: &lent.opcodes[bank.clone()],
        arguments: &lent.arguments[bank.clone()],
        keys: &lent.keys[keys..][..lengths.keys[seat]],
        ram: &mut lent.ram[bank.clone()],
        stack: &mut lent.stack[bank],
        roll: &mut lent.roll[roll..][..lengths.rolls[seat]][seats.roll_positions[seat]..],
    }
}

/// Whether there is a turn: the seats, the slice, the buffers and then the positions are right.
fn check(
    count: usize,
    slice: u32,
    lent: &Lent<'_>,
    lengths: &SeatLengths,
    seats: &Seats,
) -> Result<(), Refusal> {
    let number = if !(1..=MOST_SEATS).contains(&count) {
        28
    } else if !(1..=MOST_SLICE).contains(&slice) {
        29
    } else if !fits(count, lent, lengths) {
        17
    } else if (0..count).any(|seat| is_past(lengths, seats, seat)) {
        18
    } else {
        return Ok(());
    };
    Err(Refusal::of_call(number))
}

/// Whether the seats' parts are just what each buffer has.
fn fits(count: usize, lent: &Lent<'_>, lengths: &SeatLengths) -> bool {
    let banks = [lent.opcodes, lent.arguments, lent.ram, lent.stack];
    banks.into_iter().all(|bank| bank.len() == count * BANK)
        && total(&lengths.keys[..count]) == lent.keys.len() as u128
        && total(&lengths.rolls[..count]) == lent.roll.len() as u128
}

/// The exact sum of some lengths.
fn total(lengths: &[usize]) -> u128 {
    lengths.iter().map(|length| *length as u128).sum()
}

/// Whether a seat's key position or its roll position is past the end.
fn is_past(lengths: &SeatLengths, seats: &Seats, seat: usize) -> bool {
    seats.states[seat].position > lengths.keys[seat]
        || seats.roll_positions[seat] > lengths.rolls[seat]
}

#[cfg(test)]
mod tests {
    use super::*;

    #[test]
    fn sums_are_exact() {
        assert_eq!(total(&[]), 0);
        assert_eq!(total(&[3, 0, 4]), 7);
        assert_eq!(total(&[usize::MAX, 1]), 1 << 64);
        assert_eq!(total(&[usize::MAX; MOST_SEATS]), (1 << 67) - 8);
    }
}
