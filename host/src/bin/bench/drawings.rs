//! Sheets and lists drawn by the library and by the reference, and how the library's time grows.

use crate::banks::{jumps, programs, pushes, random, RANDOM};
use crate::kinds::{Kind, Program};
use crate::timing::{medians, timed, REPETITIONS};
use cesca::{draw_into, MOST_LIST, SHEET};
use std::hint::black_box;
use std::io::{self, Write};

/// The seconds that a repetition should take at least.
const LEAST: f64 = 2e-3;

/// The addresses that are reached in the programs that grow.
const ADDRESSES: [usize; 4] = [32, 64, 128, 255];

/// Prints the table of drawings.
pub fn table(out: &mut impl Write) -> io::Result<()> {
    writeln!(out, "drawings, median of {REPETITIONS}; microseconds a drawing")?;
    writeln!(out, "{:18} {:>10} {:>10} {:>10}", "program", "library", "reference", "lib/ref")?;
    for (name, program) in programs() {
        row(out, name, &[program])?;
    }
    for (name, kind) in [("any bytes", Kind::Any), ("near-sound", Kind::Sound)] {
        row(out, &format!("{RANDOM} {name}"), &random(kind))?;
    }
    Ok(())
}

/// Prints the row of some programs, the mean of their times.
fn row(out: &mut impl Write, name: &str, programs: &[Program]) -> io::Result<()> {
    let rounds = rounds(programs);
    let [library, reference, ratio] = medians(|| {
        let turns =
            [seconds(draw_into, programs, rounds), seconds(reference::draw, programs, rounds)];
        [turns[0], turns[1], turns[0] / turns[1]]
    });
    let drawings = f64::from(rounds) * programs.len() as f64;
    let [library, reference] = [library, reference].map(|time| time / drawings * 1e6);
    writeln!(out, "{name:18} {library:10.2} {reference:10.2} {ratio:10.3}")
}

/// Prints how the library's time grows with the addresses that are reached.
pub fn growth_table(out: &mut impl Write) -> io::Result<()> {
    writeln!(out, "library on more addresses, median of {REPETITIONS}; microseconds a drawing")?;
    writeln!(out, "{:18} {:>10} {:>10} {:>13}", "program", "addresses", "time", "ns an address")?;
    for (name, program) in [("pushes", pushes as fn(usize) -> Program), ("to and fro", jumps)] {
        for addresses in ADDRESSES {
            let programs = [program(addresses)];
            let rounds = rounds(&programs);
            let [time] = medians(|| [seconds(draw_into, &programs, rounds)]);
            let each = time / f64::from(rounds);
            let nanoseconds = each * 1e9 / addresses as f64;
            writeln!(out, "{name:18} {addresses:10} {:10.2} {nanoseconds:13.1}", each * 1e6)?;
        }
    }
    Ok(())
}

/// How often a repetition draws for all programs: often enough to be measured.
fn rounds(programs: &[Program]) -> u32 {
    let once = seconds(draw_into, programs, 1);
    (LEAST / once).ceil().clamp(1.0, 2_000.0) as u32
}

/// The seconds of so many drawings for each program.
fn seconds<D, E>(draw: D, programs: &[Program], rounds: u32) -> f64
where
    D: Fn(&[u8], &[u8], &mut [u8], &mut [u8]) -> Result<usize, E>,
{
    let (mut sheet, mut list) = ([0; SHEET], [0; MOST_LIST]);
    let all = || {
        for _ in 0..rounds {
            for Program { opcodes, arguments } in black_box(programs) {
                let _ = black_box(draw(opcodes, arguments, &mut sheet, &mut list));
            }
        }
    };
    timed(all).1
}
