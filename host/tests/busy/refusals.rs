//! Refused busy runs: the lowest number first, and nothing lent is changed.

use crate::buffers::Buffers;
use crate::compare::compared;
use crate::memory::{Guarded, BANKS};
use crate::writing::{memory, start};
use cesca::{State, BANK, MOST_STEPS, PAGE};

/// The numbers of counters that are refused.
const COUNTERS: [usize; 6] = [0, 1, 128, 255, 257, 512];

/// The lengths of a page that are refused; a run's own lines may well have room in them.
const PAGES: [usize; 6] = [0, 1, 35, 4_480, 8_925, 8_959];

/// The budgets that are refused.
const BUDGETS: [u32; 3] = [MOST_STEPS + 1, 1 << 31, u32::MAX];

/// Checks that both answer this number, and so leave all that they are lent.
fn check(before: &Buffers, budget: u32, start: State, number: u8) {
    let (answer, _) = compared(before, budget, start);
    let lengths = (before.counters.inner().len(), before.page.inner().len());
    assert_eq!(answer.err(), Some(number), "records of {lengths:?}, budget {budget}");
}

/// Checks that buffers are refused as 17, whatever position and budget.
fn check_lengths(before: &Buffers) {
    for (position, budget) in [(0, 1), (0, 0), (3, 1), (0, MOST_STEPS + 1), (3, u32::MAX)] {
        check(before, budget, start(position), 17);
    }
    check(before, 1, State { halted: true, ..start(0) }, 17);
}

#[test]
fn counters_that_are_not_256() {
    for counters in COUNTERS {
        for page in [PAGE, 10_000].into_iter().chain(PAGES) {
            check_lengths(&Buffers::with(memory(), counters, page));
        }
    }
}

#[test]
fn pages_that_are_too_short() {
    for page in PAGES {
        check_lengths(&Buffers::with(memory(), BANK, page));
    }
}

#[test]
fn banks_of_a_wrong_length() {
    for bank in BANKS {
        for length in [0, 1, 255, 257, 512] {
            let mut memory = memory();
            *bank(&mut memory) = Guarded::new(vec![0xFC; length]);
            for [counters, page] in [[BANK, PAGE], [255, PAGE], [BANK, 8_959]] {
                check_lengths(&Buffers::with(memory.clone(), counters, page));
            }
        }
    }
}

#[test]
fn positions_past_the_end() {
    for position in [3, 4, 256, 1 << 32, usize::MAX] {
        for budget in [0, 1, MOST_STEPS].into_iter().chain(BUDGETS) {
            check(&Buffers::old(memory()), budget, start(position), 18);
            let halted = State { halted: true, ..start(position) };
            check(&Buffers::with(memory(), BANK, 9_000), budget, halted, 18);
        }
    }
}

#[test]
fn budgets_over_a_million() {
    for budget in BUDGETS {
        check(&Buffers::old(memory()), budget, start(2), 19);
        check(&Buffers::old(memory()), budget, State { halted: true, ..start(0) }, 19);
    }
}

#[test]
fn the_same_is_run_with_right_lengths() {
    for page in [PAGE, PAGE + 1, 9_000, 65_536] {
        let before = Buffers::with(memory(), BANK, page);
        let (answer, after) = compared(&before, MOST_STEPS, start(2));
        assert_eq!(answer.map(|busy| (busy.report.steps, busy.lines)), Ok((4, 4)));
        assert_eq!(after.memory.roll.inner(), [5]);
        assert!(after.counters != before.counters && after.page != before.page);
    }
}
