//! Steps a second of each machine, program by program.

use crate::columns;
use crate::machines::{in_turn, library, Turns};
use crate::programs::{endless, stored};
use crate::timing::REPETITIONS;
use cesca::MOST_STEPS;
use reference::Listing;
use std::io::{self, Write};

/// Prints the table of runs, the endless programs first.
pub fn table(out: &mut impl Write) -> io::Result<()> {
    writeln!(
        out,
        "about {MOST_STEPS} steps a repetition, median of {REPETITIONS}; millions of steps a second"
    )?;
    columns::head(out, "program")?;
    rows(out, endless())?;
    rows(out, stored())
}

/// Prints the rows of some programs and the means of their ratios.
fn rows(out: &mut impl Write, programs: Vec<(String, Listing)>) -> io::Result<()> {
    let rows = programs.iter().map(|(name, program)| row(out, name, program));
    let ratios = rows.collect::<io::Result<Vec<[f64; 2]>>>()?;
    columns::means(out, &ratios)
}

/// Prints the row of a program, and yields its ratios.
fn row(out: &mut impl Write, name: &str, program: &Listing) -> io::Result<[f64; 2]> {
    let steps = library(program).run(MOST_STEPS).steps;
    let runs = MOST_STEPS / steps;
    let Turns { seconds, ratios } = in_turn(program, MOST_STEPS, runs);
    let millions = f64::from(steps * runs) / 1e6;
    columns::row(out, name, seconds.map(|seconds| millions / seconds), ratios)?;
    Ok(ratios)
}
