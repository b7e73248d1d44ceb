//! A page of busy addresses (02, request 3): a run that counts how often each address executes, and
//! a line for each that did.

use super::{run_watched, Instruction};
use cesca_types::{BusyReport, Lent, Records, Refusal, State, BANK, PAGE};
use std::cmp::Reverse;

/// What a run reports that counts its steps by address and writes the page of them, or why there is
/// none.
///
/// Counters and page are written once the run is over, so that a refusal leaves them.
pub fn run_busy(
    lent: Lent<'_>,
    records: Records<'_>,
    budget: u32,
    start: State,
) -> Result<BusyReport, Refusal> {
    let Records { counters, page } = records;
    if counters.len() != BANK || page.len() < PAGE {
        return Err(Refusal::of_call(17));
    }
    let (opcodes, arguments) = (lent.opcodes, lent.arguments);
    let mut counts = [0; BANK];
    let report = run_watched(lent, budget, start, |step| {
        counts[usize::from(step.before.pc)] += 1;
    })?;
    let busy = ranked(&counts);
    let line = |at: &usize| {
        let instruction = Instruction::of_word([opcodes[*at], arguments[*at]]);
        format!("{at:02X} {:>7} {instruction:<23}\n", counts[*at])
    };
    let text: String = busy.iter().map(line).collect();
    page[..text.len()].copy_from_slice(text.as_bytes());
    counters.copy_from_slice(&counts);
    Ok(BusyReport { report, lines: busy.len() })
}

/// The addresses executed, the largest count first, equal counts by lower address.
fn ranked(counts: &[u32; BANK]) -> Vec<usize> {
    let mut executed: Vec<usize> = (0..BANK).filter(|at| counts[*at] > 0).collect();
    executed.sort_by_key(|at| (Reverse(counts[*at]), *at));
    executed
}

#[cfg(test)]
mod tests {
    use super::*;

    #[test]
    fn the_largest_count_first_and_equal_ones_by_address() {
        let mut counts = [0; BANK];
        assert_eq!(ranked(&counts), [0; 0]);
        for (at, count) in [(255, 7), (3, 7), (0, 1), (128, 1_000_000), (9, 8)] {
            counts[at] = count;
        }
        assert_eq!(ranked(&counts), [128, 9, 3, 255, 0]);
        assert_eq!(ranked(&[5; BANK]), (0..BANK).collect::<Vec<_>>());
    }
}
