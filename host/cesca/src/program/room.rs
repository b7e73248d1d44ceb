//! `cesca room`: boards that take turns.

mod table;

use super::console::Console;
use super::failure::Failure;
use super::input;
use super::options::Options;
use super::roll;
use cesca::{Refusal, Room, Seat, Stop, Turn, MOST_SEATS, MOST_SLICE, MOST_STEPS};
use std::ffi::OsStr;
use std::io::Write;
use table::Column;

/// What is told of a seat beside what the room has of it.
struct Tally {
    /// The need of its listing.
    need: u8,
    /// The steps of its turns.
    steps: u64,
    /// The cycles of these steps.
    cycles: u64,
}

/// A seat as it is shown.
struct Shown<'a> {
    name: &'a OsStr,
    seat: Seat<'a>,
    tally: &'a Tally,
}

/// Writes a line for each of the admitted listings in up to eight files, after they took turns.
pub fn room(console: &mut Console, options: &Options) -> Result<(), Failure> {
    let steps = options.steps.unwrap_or(MOST_STEPS);
    let (mut room, mut tallies) = seated(options, steps)?;
    let slice = options.slice.unwrap_or(MOST_SLICE);
    let outcome = turns(&mut room, &mut tallies, slice, steps);
    outcome.map_err(|refusal| Failure::of_option("--slice", &refusal))?;
    let seats = options.files.iter().zip(room.seats()).zip(&tallies);
    let seats = seats.map(|((name, seat), tally)| Shown { name, seat, tally });
    for line in table::lines(&columns(), seats) {
        writeln!(console, "{line}")?;
    }
    Ok(())
}

/// A room with a seat for each file, and a tally for each.
fn seated(options: &Options, steps: u32) -> Result<(Room, Vec<Tally>), Failure> {
    let (mut room, mut tallies) = (Room::new(), Vec::with_capacity(MOST_SEATS));
    // A step writes one word at most, so no roll is full before a run's most steps.
    let roll = steps.min(MOST_STEPS) as usize;
    for (file, name) in options.files.iter().enumerate() {
        let refused = |refusal| Failure::of_refusal(name, &refusal);
        // A file without a seat isn't read.
        room.free_seat().map_err(refused)?;
        let admitted = input::admitted(name)?;
        room.add(&admitted, options.keys(file), roll).map_err(refused)?;
        tallies.push(Tally { need: admitted.need(), steps: 0, cycles: 0 });
    }
    Ok((room, tallies))
}

/// Makes turns of this slice until no seat can go on or all together have made so many steps; the
/// last turn is as short as it must be. A refusal is of the slice.
fn turns(room: &mut Room, tallies: &mut [Tally], slice: u32, steps: u32) -> Result<(), Refusal> {
    if !(1..=MOST_SLICE).contains(&slice) {
        // The library refuses it, also where no step is to be made.
        room.turn(slice)?;
    }
    let mut left = steps;
    while left > 0 {
        let Some(turn) = room.turn(slice.min(left))? else { break };
        let Turn { seat, steps, cycles, .. } = turn;
        tallies[seat].steps += u64::from(steps);
        tallies[seat].cycles += u64::from(cycles);
        left -= steps;
    }
    Ok(())
}

/// What is shown of a seat.
fn columns<'a>() -> [Column<Shown<'a>>; 8] {
    [
        Column::right("seat", |shown| shown.seat.number().to_string()),
        Column::left("name", |shown| shown.name.display().to_string()),
        Column::right("need", |shown| shown.tally.need.to_string()),
        Column::left("stop", |shown| shown.seat.stop().unwrap_or(Stop::Spent).to_string()),
        Column::right("steps", |shown| shown.tally.steps.to_string()),
        Column::right("cycles", |shown| shown.tally.cycles.to_string()),
        Column::right("out", |shown| shown.seat.state().out.to_string()),
        Column::left("roll", |shown| roll::text(shown.seat.roll())),
    ]
}
