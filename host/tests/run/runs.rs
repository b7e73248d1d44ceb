//! Random runs, the library and the machines it is measured by beside the reference.

use crate::case::Case;
use crate::random::each_case;
use crate::tally::Tally;
use crate::Machine;
use baselines::{plain, predecoded};

/// The calls made of each machine.
const CASES: u64 = 250_000;

/// Checks a machine on random calls: outcome and everything lent, guards included.
fn check(machine: Machine) {
    let mut tally = Tally::new();
    each_case(CASES, |random| {
        let Case { memory: before, budget, start } = Case::random(random);
        let mut wanted_memory = before.clone();
        let lent = wanted_memory.lend();
        let wanted = reference::run_watched(lent, budget, start, |step| tally.step(step));
        tally.outcome(&wanted);

        let mut memory = before.clone();
        let found = machine(memory.lend(), budget, start);
        let inputs = || format!("budget {budget} from {start:?} with {before:?}");
        assert_eq!(found, wanted, "{}", inputs());
        assert!(memory == wanted_memory, "{} {}", memory.differences(&wanted_memory), inputs());
    });
    tally.check();
}

#[test]
fn the_library_runs_as_the_reference() {
    check(cesca::run);
}

#[test]
fn the_plain_machine_runs_as_the_reference() {
    check(plain::run);
}

#[test]
fn the_predecoded_machine_runs_as_the_reference() {
    check(predecoded::run);
}
