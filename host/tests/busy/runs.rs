//! Random busy runs, 60,000 and more: library and reference agree on all that they answer and
//! leave.

use crate::buffers::Buffers;
use crate::case::Case;
use crate::compare::compared;
use crate::programs::Kind;
use crate::random::each_case;
use crate::tally::Tally;
use cesca::{MOST_STEPS, PAGE};

/// What so many calls of a kind came to.
fn tallied(kind: Kind, cases: u64) -> Tally {
    let mut tally = Tally::default();
    each_case(cases, |random| {
        let (before, Case { budget, start, .. }) = kind.call(random);
        let (answer, after) = compared(&before, budget, start);
        tally.add(budget, start.halted, answer, &after);
    });
    tally
}

#[test]
fn any_calls_are_run_alike() {
    let tally = tallied(Kind::Any, 40_000);
    let Tally { stops, refusals, budgets, halted, filled, pages, ties, lengths, .. } = &tally;
    assert!(stops.iter().all(|count| *count >= 1_000), "{tally:?}");
    assert!(refusals.iter().all(|count| *count >= 500), "{tally:?}");
    assert!(budgets.iter().all(|count| *count >= 1_000), "{tally:?}");
    assert!(pages[..2].iter().all(|count| *count >= 1_000), "{tally:?}");
    assert!(lengths.iter().all(|count| *count >= 10_000), "{tally:?}");
    assert!(*halted >= 500 && *filled >= 1_000 && *ties >= 2_000, "{tally:?}");
}

#[test]
fn rounds_are_run_alike() {
    let tally = tallied(Kind::Round, 20_000);
    assert!(tally.stops[1] == 20_000 && tally.refusals == [0; 3], "{tally:?}");
    assert!(tally.pages[1] >= 2_000 && tally.ties >= 5_000, "{tally:?}");
}

#[test]
fn whole_banks_are_run_alike() {
    let tally = tallied(Kind::Whole, 1_000);
    assert!(tally.stops[1] == 1_000 && tally.pages[2] >= 700, "{tally:?}");
    assert!(tally.ties >= 400, "{tally:?}");
}

#[test]
fn runs_of_all_budgets_are_run_alike() {
    let tally = tallied(Kind::Long, 300);
    assert!(tally.refusals == [0; 3], "{tally:?}");
    assert!(tally.long.iter().all(|count| *count >= 30), "{tally:?}");
}

#[test]
fn the_longest_runs_are_run_alike() {
    let mut steps = Vec::new();
    each_case(4, |random| {
        let kind = random.pick(&[Kind::Round, Kind::Whole]);
        let (Buffers { memory, .. }, Case { start, .. }) = kind.call(random);
        let before = Buffers::with(memory, 256, PAGE);
        for budget in [MOST_STEPS - 1, MOST_STEPS] {
            let (answer, after) = compared(&before, budget, start);
            steps.push(answer.expect("nothing to refuse").report.steps);
            let sum: u32 = after.counters.inner().iter().sum();
            assert_eq!(sum, budget);
        }
    });
    assert_eq!(steps, [MOST_STEPS - 1, MOST_STEPS].repeat(4));
}
