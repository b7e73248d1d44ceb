//! How the library's times grow: with the steps of a run, and with the routines of a listing.

use crate::admissions::{seconds, BATCH};
use crate::listings::{calls, CALLS};
use crate::machines::library;
use crate::programs::ALU;
use crate::timing::{medians, REPETITIONS};
use cesca::{admit, BANK, MOST_STEPS};
use reference::Listing;
use std::io::{self, Write};

/// The budgets of the runs.
const BUDGETS: [u32; 4] = [1_000, 10_000, 100_000, 1_000_000];

/// The routines of the listings; a single one can't have a call that is admitted.
const ROUTINES: [u8; 4] = [2, 4, 16, 64];

/// Prints the time of a step at each budget, as many steps being made with each.
pub fn steps_table(out: &mut impl Write) -> io::Result<()> {
    writeln!(out, "library on alu, {MOST_STEPS} steps a repetition, median of {REPETITIONS}")?;
    let program = Listing::read(ALU);
    let mut bench = library(&program);
    let times = medians(|| BUDGETS.map(|budget| bench.timed(budget, MOST_STEPS / budget).1));
    rows(out, ["steps a run", "ns a step"], BUDGETS, times, MOST_STEPS)
}

/// Prints the time that admission takes for an address, at each number of routines.
pub fn routines_table(out: &mut impl Write) -> io::Result<()> {
    writeln!(
        out,
        "library on {CALLS} calls, {BATCH} admissions a repetition, median of {REPETITIONS}"
    )?;
    let listings = ROUTINES.map(calls);
    let times = medians(|| listings.each_ref().map(|listing| seconds(admit, listing)));
    rows(out, ["routines", "ns an address"], ROUTINES.map(u32::from), times, BATCH * BANK as u32)
}

/// Prints a row for each number: the time of one of so many things, and how it is to the first
/// row's.
fn rows(
    out: &mut impl Write,
    heads: [&str; 2],
    numbers: [u32; 4],
    times: [f64; 4],
    things: u32,
) -> io::Result<()> {
    writeln!(out, "{:18} {:>13} {:>10}", heads[0], heads[1], "to first")?;
    for (number, time) in numbers.into_iter().zip(times) {
        let nanoseconds = time / f64::from(things) * 1e9;
        writeln!(out, "{number:<18} {nanoseconds:13.2} {:10.3}", time / times[0])?;
    }
    Ok(())
}
