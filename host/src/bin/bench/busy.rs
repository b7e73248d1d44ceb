//! Runs that count their addresses and write the page: a step of them, and the page by itself.

use crate::banks::{downwards, mixed, upwards};
use crate::kinds::Program;
use crate::machines::{busy, counted, library, plain, Bench, Machine};
use crate::programs::endless;
use crate::timing::{medians, REPETITIONS};
use cesca::{BANK, MOST_STEPS};
use reference::Listing;
use std::io::{self, Write};

/// The runs of a page that are timed together.
const RUNS: u32 = 100;

/// The steps after which a program with counts along a way has entered it at every address.
const ENTERED: u32 = 32_895;

/// Prints the table of steps: the library's busy run, the plain machine with counters and without,
/// and the library's own run.
pub fn steps_table(out: &mut impl Write) -> io::Result<()> {
    writeln!(out, "busy runs of {MOST_STEPS} steps, median of {REPETITIONS}; nanoseconds a step")?;
    write!(out, "{:18} {:>10} {:>10} {:>10} {:>10}", "program", "busy", "counted", "plain", "run")?;
    writeln!(out, " {:>10} {:>10} {:>10}", "busy/count", "busy/plain", "busy/run")?;
    for (name, program) in endless() {
        steps_row(out, &name, &program)?;
    }
    Ok(())
}

/// Prints the row of a program, whose machines take turns.
fn steps_row(out: &mut impl Write, name: &str, program: &Listing) -> io::Result<()> {
    let (mut busy, mut run) = (busy(program), library(program));
    let (mut counted, mut plain) = (counted(program), plain(program));
    let [busy, counted, plain, run, ratios @ ..] = medians(|| {
        let turns = [
            busy.timed(MOST_STEPS, 1),
            counted.timed(MOST_STEPS, 1),
            plain.timed(MOST_STEPS, 1),
            run.timed(MOST_STEPS, 1),
        ];
        assert!(turns.iter().all(|(report, _)| *report == turns[0].0), "all report the same");
        let [busy, counted, plain, run] = turns.map(|(_, seconds)| seconds);
        [busy, counted, plain, run, busy / counted, busy / plain, busy / run]
    });
    let each = [busy, counted, plain, run].map(|seconds| seconds / f64::from(MOST_STEPS) * 1e9);
    let [busy, counted, plain, run] = each;
    write!(out, "{name:18} {busy:10.2} {counted:10.2} {plain:10.2} {run:10.2}")?;
    let [over_counted, over_plain, over_run] = ratios;
    writeln!(out, " {over_counted:10.3} {over_plain:10.3} {over_run:10.3}")
}

/// Prints the table of pages: what a busy run takes beyond the library's run of the same steps.
/// That is the page, and what counting adds to the steps.
pub fn pages_table(out: &mut impl Write) -> io::Result<()> {
    writeln!(out, "pages of {BANK} lines, median of {REPETITIONS}; microseconds a busy run")?;
    writeln!(out, "{:18} {:>10} {:>10} {:>10}", "page", "steps", "busy", "less run")?;
    for (name, program, steps) in pages() {
        let mut machines = (busy(&program), library(&program));
        let [busy, beyond] = medians(|| {
            let [busy, run] = [seconds(&mut machines.0, steps), seconds(&mut machines.1, steps)];
            [busy, busy - run]
        });
        let [busy, beyond] = [busy, beyond].map(|seconds| seconds / f64::from(RUNS) * 1e6);
        writeln!(out, "{name:18} {steps:10} {busy:10.2} {beyond:10.2}")?;
    }
    Ok(())
}

/// The seconds of the runs of a page.
fn seconds(bench: &mut Bench<'_, impl Machine>, steps: u32) -> f64 {
    let (report, seconds) = bench.timed(steps, RUNS);
    assert_eq!(report.steps, steps, "the budget is spent");
    seconds
}

/// Programs that execute all addresses, each with its steps.
fn pages() -> Vec<(&'static str, Listing, u32)> {
    let banks = |[opcode, argument]: [u8; 2]| Program {
        opcodes: [opcode; BANK],
        arguments: [argument; BANK],
    };
    vec![
        ("nop", listing(&banks([0xFC, 0x00])), BANK as u32),
        ("longest text", listing(&banks([0x23, 0x31])), BANK as u32), // addc NONE, R3, R1
        ("counts upwards", listing(&along(&upwards(254))), ENTERED),
        ("counts downwards", listing(&along(&downwards(254))), ENTERED),
        ("counts mixed", listing(&along(&mixed(254))), ENTERED),
    ]
}

/// A way of jumps through the addresses below 254 in this order and then through the last two,
/// which is entered at address 0, at 1, and so on: counts grow along it, and no two but the last
/// are equal.
fn along(order: &[u8]) -> Program {
    let mut program = Program { opcodes: [0xA0; BANK], arguments: [0; BANK] };
    let way = [order, &[254]].concat();
    for pair in way.windows(2) {
        program.arguments[usize::from(pair[0])] = pair[1]; // jmp
    }
    (program.opcodes[254], program.arguments[254]) = (0x10, 0x01); // add R0, R0, 1
    (program.opcodes[255], program.arguments[255]) = (0xA4, 0x00); // jmp R0
    program
}

/// A program as the machines take it.
fn listing(program: &Program) -> Listing {
    let Program { opcodes, arguments } = program;
    Listing { opcodes: opcodes.to_vec(), arguments: arguments.to_vec(), ..Listing::blank() }
}

#[cfg(test)]
mod tests {
    use super::*;
    use cesca::{run_busy, Lent, Records, State, PAGE};

    /// The counters after a busy run.
    fn counts(program: &Listing, budget: u32) -> [u32; BANK] {
        let Listing { opcodes, arguments, .. } = program;
        let (mut counters, mut page) = ([0; BANK], [0; PAGE]);
        let (ram, stack) = (&mut [0; BANK], &mut [0; BANK]);
        let lent = Lent { opcodes, arguments, keys: &[], ram, stack, roll: &mut [] };
        let records = Records { counters: &mut counters, page: &mut page };
        let busy = run_busy(lent, records, budget, State::start()).expect("nothing to refuse");
        assert_eq!((busy.report.steps, busy.lines), (budget, BANK));
        counters
    }

    #[test]
    fn the_pages_have_all_addresses() {
        for (name, program, steps) in pages() {
            assert_eq!(counts(&program, steps).iter().sum::<u32>(), steps, "{name}");
        }
    }

    #[test]
    fn counts_grow_along_the_way() {
        for order in [upwards(254), downwards(254), mixed(254)] {
            let counts = counts(&listing(&along(&order)), ENTERED);
            for (place, at) in (1..).zip(&order) {
                assert_eq!(counts[usize::from(*at)], place, "{at}");
            }
            assert_eq!(counts[254..], [255, 255]);
        }
    }
}
