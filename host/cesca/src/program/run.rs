//! `cesca run`: what a run of a listing comes to.

use super::console::Console;
use super::failure::Failure;
use super::input;
use super::options::Options;
use super::roll;
use cesca::{running_time, Board, Refusal, Report, MOST_STEPS};
use std::io::Write;

/// Writes what a run of the admitted listing in a file reports.
pub fn run(console: &mut Console, options: &Options) -> Result<(), Failure> {
    let (board, report) = after_run(options, Board::run)?;
    show(console, options, &report, board.roll())
}

/// The board after a run of the admitted listing in a file, and what the run comes to; `run` makes
/// it, given keys and steps.
pub fn after_run<T>(
    options: &Options,
    run: impl Fn(&mut Board, &[u8], u32) -> Result<T, Refusal>,
) -> Result<(Board, T), Failure> {
    let name = &options.files[0];
    let steps = options.steps.unwrap_or(MOST_STEPS);
    // A step writes one word at most, so the roll is never full.
    let words = steps.min(MOST_STEPS) as usize;
    let mut board = input::admitted(name)?.board().with_roll(words);
    let outcome = run(&mut board, options.keys(0), steps);
    let outcome = outcome.map_err(|refusal| Failure::of_refusal(name, &refusal))?;
    Ok((board, outcome))
}

/// Writes a report and the words of the roll, with the time if a clock is given.
pub fn show(
    console: &mut Console,
    options: &Options,
    report: &Report,
    roll: &[u16],
) -> Result<(), Failure> {
    let time = options.hz.map(|hz| running_time(report.cycles, hz)).transpose();
    let time = time.map_err(|refusal| Failure::of_refusal(&options.files[0], &refusal))?;
    writeln!(console, "stop: {}", report.stop)?;
    writeln!(console, "steps: {}", report.steps)?;
    writeln!(console, "cycles: {}", report.cycles)?;
    if let Some(tenths) = time {
        writeln!(console, "time: {}.{} s", tenths / 10, tenths % 10)?;
    }
    writeln!(console, "out: {}", report.state.out)?;
    let roll = roll::text(roll);
    let space = if roll.is_empty() { "" } else { " " };
    writeln!(console, "roll:{space}{roll}")?;
    Ok(())
}
