//! Nanoseconds of a short run by each machine.

use crate::columns;
use crate::machines::{in_turn, Turns};
use crate::programs::MIX;
use crate::timing::REPETITIONS;
use cesca::MOST_STEPS;
use reference::Listing;
use std::io::{self, Write};

/// The runs that are timed together.
const RUNS: u32 = 10_000;

/// Prints the table of short runs.
pub fn table(out: &mut impl Write) -> io::Result<()> {
    writeln!(out, "{RUNS} runs a repetition, median of {REPETITIONS}; nanoseconds a run")?;
    columns::head(out, "run")?;
    row(out, "10 steps of mix", &Listing::read(MIX), 10)?;
    row(out, "listing A to hlt", &Listing::a(), MOST_STEPS)
}

/// Prints the row of a program's runs.
fn row(out: &mut impl Write, name: &str, program: &Listing, budget: u32) -> io::Result<()> {
    let Turns { seconds, ratios } = in_turn(program, budget, RUNS);
    columns::row(out, name, seconds.map(|seconds| seconds / f64::from(RUNS) * 1e9), ratios)
}
