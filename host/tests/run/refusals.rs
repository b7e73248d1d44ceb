//! Refused runs: the lowest number first, and nothing lent is changed.

use crate::memory::{Guarded, Memory, BANKS};
use crate::writing::{memory, start};
use crate::MACHINES;
use cesca::{Refusal, State};

/// Checks that every machine refuses with this number and changes nothing.
fn check(memory: &Memory, budget: u32, start: State, number: u8) {
    for (name, machine) in MACHINES {
        let mut lent = memory.clone();
        let found = machine(lent.lend(), budget, start);
        assert_eq!(found, Err(Refusal::of_call(number)), "{name}");
        assert!(lent == *memory, "{name} wrote: {lent:?}");
    }
}

#[test]
fn banks_of_a_wrong_length() {
    for bank in BANKS {
        for length in [0, 1, 255, 257, 512, 65_536] {
            let mut memory = memory();
            *bank(&mut memory) = Guarded::new(vec![0xFC; length]);
            check(&memory, 1, start(0), 17);
            check(&memory, 1, start(3), 17);
            check(&memory, 1_000_001, start(0), 17);
            check(&memory, u32::MAX, start(usize::MAX), 17);
        }
    }
}

#[test]
fn positions_past_the_end() {
    for position in [3, 4, 256, 1 << 32, usize::MAX] {
        check(&memory(), 1, start(position), 18);
        check(&memory(), 1_000_001, start(position), 18);
        let halted = State { halted: true, ..start(position) };
        check(&memory(), 0, halted, 18);
    }
}

#[test]
fn budgets_over_a_million() {
    for budget in [1_000_001, 1_000_002, 1 << 24, 1 << 31, u32::MAX] {
        check(&memory(), budget, start(2), 19);
        check(&memory(), budget, State { halted: true, ..start(0) }, 19);
    }
}

#[test]
fn the_highest_position_and_budget_are_allowed() {
    for (name, machine) in MACHINES {
        let mut lent = memory();
        let report = machine(lent.lend(), 1_000_000, start(2)).expect(name);
        assert_eq!((report.steps, report.cycles, report.words), (4, 15, 1), "{name}");
        assert_eq!((lent.ram.inner()[1], lent.stack.inner()[254]), (1, 2), "{name}");
        assert_eq!(lent.roll.inner(), [5], "{name}");
    }
}
