//! Speed of the library: runs beside two machines in Rust, busy runs beside one of them with
//! counters and without, turns of a room beside runs, admissions, assemblies, drawings and shelf
//! files beside the reference, and how all of them grow.

mod admissions;
mod assemblies;
mod banks;
mod busy;
mod columns;
mod drawings;
mod growth;
#[allow(dead_code)]
#[path = "../../../tests/draw/programs.rs"]
mod kinds;
mod listings;
mod machines;
mod programs;
#[allow(dead_code)]
#[path = "../../../tests/common/random.rs"]
mod random;
mod room;
#[path = "../../../tests/draw/routines.rs"]
mod routines;
mod runs;
mod shelf;
mod short;
mod sources;
#[allow(dead_code)]
#[path = "../../../tests/common/stored.rs"]
mod stored;
mod timing;
mod turns;

use std::io::{self, ErrorKind, Write};

fn main() -> io::Result<()> {
    match tables(&mut io::stdout().lock()) {
        // Nobody reads any longer.
        Err(error) if error.kind() == ErrorKind::BrokenPipe => Ok(()),
        outcome => outcome,
    }
}

/// Prints the tables, one behind another.
fn tables(out: &mut impl Write) -> io::Result<()> {
    let tables = [
        runs::table,
        short::table,
        growth::steps_table,
        growth::routines_table,
        busy::steps_table,
        busy::pages_table,
        turns::slices_table,
        turns::steps_table,
        admissions::table,
        assemblies::table,
        assemblies::growth_table,
        drawings::table,
        drawings::growth_table,
        shelf::table,
        shelf::growth_table,
    ];
    for (number, table) in tables.into_iter().enumerate() {
        if number > 0 {
            writeln!(out)?;
        }
        table(out)?;
    }
    Ok(())
}
