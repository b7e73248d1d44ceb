//! Turns of a room of eight boards beside runs of the same steps.

use crate::programs::{endless, MIX};
use crate::room::{Board, Room};
use crate::timing::{medians, timed, REPETITIONS};
use cesca::{MOST_SEATS, MOST_SLICE};
use reference::Listing;
use std::io::{self, Write};

/// The turns of the longest slice that are timed together.
const LONG: u32 = 1_000;

/// The turns of one step that are timed together.
const SHORT: u32 = 10_000;

/// Prints the table of turns of the longest slice, all seats going on.
pub fn slices_table(out: &mut impl Write) -> io::Result<()> {
    writeln!(
        out,
        "turns of {MOST_SLICE} steps, {MOST_SEATS} seats that all go on, \
         median of {REPETITIONS}; microseconds a turn"
    )?;
    head(out, "program")?;
    for (name, program) in endless() {
        row(out, &name, Times::of(&program, MOST_SLICE, LONG, 0), 1e6)?;
    }
    Ok(())
}

/// Prints the table of turns of one step.
pub fn steps_table(out: &mut impl Write) -> io::Result<()> {
    writeln!(
        out,
        "turns of 1 step of mix, {MOST_SEATS} seats, median of {REPETITIONS}; nanoseconds a turn"
    )?;
    head(out, "seats")?;
    let program = Listing::read(MIX);
    row(out, "all go on", Times::of(&program, 1, SHORT, 0), 1e9)?;
    row(out, "only the last does", Times::of(&program, 1, SHORT, MOST_SEATS - 1), 1e9)
}

/// Prints the head of a table.
fn head(out: &mut impl Write, row: &str) -> io::Result<()> {
    writeln!(out, "{row:18} {:>10} {:>10} {:>10}", "turn", "run", "turn/run")
}

/// Prints a row, with so many units in a second.
fn row(out: &mut impl Write, name: &str, times: Times, units: f64) -> io::Result<()> {
    let [turn, run] = [times.turn, times.run].map(|seconds| seconds * units);
    writeln!(out, "{name:18} {turn:10.3} {run:10.3} {:10.3}", times.ratio)
}

/// The medians of the repetitions: the seconds of a turn, those of a run, and their ratio.
struct Times {
    turn: f64,
    run: f64,
    ratio: f64,
}

impl Times {
    /// The times of so many turns and runs, each repetition from the start with the first seats
    /// halted.
    fn of(program: &Listing, slice: u32, turns: u32, halted: usize) -> Times {
        let mut room = Room::new(program);
        let mut boards = boards(program);
        let [turn, run, ratio] = medians(|| {
            room.start(halted);
            boards.iter_mut().for_each(Board::start);
            let (by_turns, turn) = timed(|| make_turns(&mut room, slice, turns));
            let (by_runs, run) = timed(|| make_runs(&mut boards[halted..], slice, turns));
            assert_eq!(by_turns, by_runs, "steps and cycles are the same");
            check_alike(&room, &boards, halted);
            [turn, run, turn / run]
        });
        Times { turn: turn / f64::from(turns), run: run / f64::from(turns), ratio }
    }
}

/// The boards of a room, each by itself.
fn boards(program: &Listing) -> Vec<Board<'_>> {
    (0..MOST_SEATS).map(|_| Board::new(program)).collect()
}

/// Steps and cycles of so many turns, each from the seat that the one before gave.
fn make_turns(room: &mut Room, slice: u32, turns: u32) -> [u32; 2] {
    let (mut sums, mut from) = ([0; 2], 0);
    for _ in 0..turns {
        let turn = room.turn(slice, from);
        sums = [sums[0] + turn.steps, sums[1] + turn.cycles];
        from = turn.next;
    }
    sums
}

/// Steps and cycles of so many runs, board after board.
fn make_runs(boards: &mut [Board], slice: u32, runs: u32) -> [u32; 2] {
    let (mut sums, mut at) = ([0; 2], 0);
    for _ in 0..runs {
        let report = boards[at].run(slice);
        sums = [sums[0] + report.steps, sums[1] + report.cycles];
        at = if at + 1 == boards.len() { 0 } else { at + 1 };
    }
    sums
}

/// Fails unless each seat that isn't halted is where its board is.
fn check_alike(room: &Room, boards: &[Board], halted: usize) {
    for (seat, board) in boards.iter().enumerate().skip(halted) {
        assert_eq!(room.seats.states[seat], board.state, "seat {seat}");
        assert_eq!(room.seats.roll_positions[seat], board.words, "seat {seat}");
    }
}

#[cfg(test)]
mod tests {
    use super::*;

    #[test]
    fn turns_make_the_steps_of_runs() {
        for (name, program) in endless() {
            for (slice, turns, halted) in [(MOST_SLICE, 80, 0), (1, 100, 0), (1, 30, 7)] {
                let mut room = Room::new(&program);
                let mut boards = boards(&program);
                room.start(halted);
                let steps = make_turns(&mut room, slice, turns);
                assert_eq!(steps, make_runs(&mut boards[halted..], slice, turns), "{name}");
                assert_eq!(steps[0], slice * turns, "{name}");
                check_alike(&room, &boards, halted);
            }
        }
    }

    #[test]
    fn only_the_last_seat_runs_behind_halted_ones() {
        let mut room = Room::new(&Listing::read(MIX));
        room.start(MOST_SEATS - 1);
        for _ in 0..3 {
            let turn = room.turn(1, 0);
            assert_eq!((turn.seat, turn.next, turn.steps), (7, 0, 1));
        }
    }
}
