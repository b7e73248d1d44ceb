//! Runs, ALU functions, jumps and running times worked out by hand from the papers: what every
//! machine makes of them, line by line.

mod print;
mod row;
mod runs;
mod sweeps;

use crate::{Machine, MACHINES};
use cesca::{running_time, Lent};
use print::{number, report};
use row::{at_key, Row};
use sweeps::{functions, jumps};

/// What the papers say, a line each.
const STORED: &str = include_str!("worked.txt");

/// What a conditional jump is tried on: R0 and the immediate that it is compared with.
const COMPARED: [(u8, u8); 5] = [(5, 5), (3, 5), (5, 3), (128, 1), (127, 255)];

/// Cycles and clocks.
const TIMED: [(u32, u32); 8] = [
    (4, 100),
    (5, 100),
    (25, 100),
    (8_000_000, 1),
    (1, 0),
    (1, 1_000_001),
    (8_000_001, 1_000_000),
    (8_000_001, 0),
];

/// The lines of a machine. A running time is the library's, since the machines have none.
fn lines(machine: Machine) -> Vec<String> {
    let mut lines: Vec<String> = runs::rows().iter().map(|row| row.line(machine)).collect();
    lines.push(short_bank(machine));
    lines.push("functions of 202 and 166, carry set:".to_string());
    lines.extend(functions(machine, 202, 166));
    lines.extend(COMPARED.map(|(r0, imm)| jumps(machine, r0, imm)));
    lines.extend(TIMED.map(|(cycles, clock)| time(cycles, clock)));
    lines
}

/// The line of a run with a data bank of 255 bytes, a position past the keys and too many steps.
fn short_bank(machine: Machine) -> String {
    let row = Row { budget: 1_000_001, start: at_key(1), ..Row::new("17 before 18", "") };
    let mut memory = row.memory();
    let lent = memory.lend();
    let lent = Lent { ram: &mut lent.ram[1..], ..lent };
    format!("{}: {}", row.name, report(&machine(lent, row.budget, row.start), row.start))
}

/// The line of a running time.
fn time(cycles: u32, clock: u32) -> String {
    let tenths = running_time(cycles, clock).map(|tenths| tenths.to_string());
    let tenths = tenths.unwrap_or_else(|refusal| number(&refusal));
    format!("{cycles} cycles at {clock} Hz: {tenths}")
}

#[test]
fn every_machine_makes_of_the_cases_what_is_stored() {
    for (name, machine) in MACHINES {
        let found = lines(machine);
        for (found, wanted) in found.iter().zip(STORED.lines()) {
            assert_eq!(found, wanted, "{name}");
        }
        assert_eq!(found.join("\n") + "\n", STORED, "{name}");
    }
}
