//! The plain machine with counters, by which the library's busy runs are measured, beside the
//! reference.

use crate::buffers::Buffers;
use crate::case::Case;
use crate::programs::Kind;
use crate::random::each_case;
use baselines::plain;
use cesca::{Refusal, Report, State, BANK, PAGE};
use reference::run_busy;

/// What the plain machine reports on these buffers, and what they then hold; the page stays.
fn counted(before: &Buffers, budget: u32, start: State) -> (Result<Report, Refusal>, Buffers) {
    let mut after = before.clone();
    let counters = after.counters.inner_mut().try_into().expect("256 counters");
    let report = plain::run_counted(after.memory.lend(), counters, budget, start);
    (report, after)
}

/// Checks the plain machine on so many random calls of a kind, with counters as they must be.
fn check(kind: Kind, cases: u64) {
    let mut refused = 0;
    each_case(cases, |random| {
        let (Buffers { memory, .. }, Case { budget, start, .. }) = kind.call(random);
        let before = Buffers::with(memory, BANK, PAGE);
        let (answer, wanted) = before.lent(run_busy, budget, start);
        let wanted = Buffers { page: before.page.clone(), ..wanted };
        let (found, after) = counted(&before, budget, start);
        let inputs = || format!("budget {budget} from {start:?} with {before:?}");
        refused += u64::from(found.is_err());
        let found = found.map_err(|refusal| refusal.number());
        assert_eq!(found, answer.map(|busy| busy.report), "{}", inputs());
        assert!(after == wanted, "{} {}", after.differences(&wanted), inputs());
    });
    assert_eq!(refused > 0, kind == Kind::Any);
}

#[test]
fn any_calls_are_counted_as_by_the_reference() {
    check(Kind::Any, 20_000);
}

#[test]
fn rounds_and_whole_banks_are_counted_as_by_the_reference() {
    check(Kind::Round, 5_000);
    check(Kind::Whole, 200);
}
