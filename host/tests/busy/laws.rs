//! Laws of busy runs that need no reference.

use crate::buffers::Buffers;
use crate::case::Case;
use crate::programs::Kind;
use crate::random::each_case;
use cesca::{run, run_busy, BusyReport, BANK, LINE, PAGE};

/// Address and count of a line.
fn parsed(line: &str) -> (u8, u32) {
    let (at, rest) = line.split_at(2);
    let upper = at.bytes().all(|digit| matches!(digit, b'0'..=b'9' | b'A'..=b'F'));
    assert!(upper && line.len() == LINE - 1, "{line:?}");
    let count = rest[1..8].trim_start().parse().expect("a number");
    (u8::from_str_radix(at, 16).expect("an address"), count)
}

/// Checks that the counters add up to the steps, and that the page has a line for each that isn't 0,
/// in order, and is kept behind them.
fn check_records(before: &Buffers, after: &Buffers, BusyReport { report, lines }: BusyReport) {
    let Buffers { counters, page, .. } = after;
    assert_eq!(counters.inner().iter().sum::<u32>(), report.steps);
    let (written, kept) = page.inner().split_at(lines * LINE);
    assert!(*kept == before.page.inner()[lines * LINE..], "bytes behind the lines");
    let text = str::from_utf8(written).expect("ASCII");
    let told: Vec<(u8, u32)> = text.lines().map(parsed).collect();
    let executed = counters.inner().iter().filter(|count| **count > 0).count();
    assert_eq!((told.len(), executed), (lines, lines));
    assert!(told.iter().all(|(at, count)| counters.inner()[usize::from(*at)] == *count));
    let sorted =
        told.is_sorted_by(|(at, count), (next, less)| count > less || (count == less && at < next));
    assert!(sorted, "{text}");
}

#[test]
fn a_busy_run_is_the_run() {
    each_case(20_000, |random| {
        let (before, Case { mut memory, budget, start }) = Kind::Any.call(random);
        let (found, after) = before.lent(run_busy, budget, start);
        let [counters, page] = [before.counters.inner().len(), before.page.inner().len()];
        if counters != BANK || page < PAGE {
            assert_eq!(found, Err(17), "records of {counters} and {page}");
            assert!(after == before, "{}", after.differences(&before));
            return;
        }
        let wanted = run(memory.lend(), budget, start).map_err(|refusal| refusal.number());
        assert_eq!(found.map(|busy| busy.report), wanted, "budget {budget} from {start:?}");
        assert!(after.memory == memory, "{}", after.memory.differences(&memory));
    });
}

#[test]
fn the_page_tells_the_counters_which_add_up_to_the_steps() {
    // The pages checked, and those of them with lines to be in order.
    let (mut pages, mut ordered) = (0, 0);
    each_case(5_000, |random| {
        let kind = random.pick(&[Kind::Any, Kind::Round, Kind::Round]);
        let (before, Case { budget, start, .. }) = kind.call(random);
        let (answer, after) = before.lent(run_busy, budget, start);
        if let Ok(busy) = answer {
            check_records(&before, &after, busy);
            pages += 1;
            ordered += u64::from(busy.lines > 1);
        }
    });
    assert!(pages >= 4_000 && ordered >= 3_000, "{pages} pages, {ordered} with several lines");
}
