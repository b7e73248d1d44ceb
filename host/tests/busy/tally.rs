//! What random busy runs came to, so that nothing goes untested.

use crate::buffers::Buffers;
use crate::runners::Answer;
use cesca::{BANK, LINE, MOST_STEPS};

/// How often each thing was met.
#[derive(Debug, Default)]
pub struct Tally {
    /// Runs by their stop.
    pub stops: [u64; 4],
    /// Refused calls by their ground, from 17.
    pub refusals: [u64; 3],
    /// Runs with a budget of 0, and of 1.
    pub budgets: [u64; 2],
    /// Runs from a halted state.
    pub halted: u64,
    /// Runs that wrote as many words as their roll has, one at least.
    pub filled: u64,
    /// Pages without a line, with one, and with all 256.
    pub pages: [u64; 3],
    /// Pages on which two addresses have the same count, and the first of them another than the
    /// last.
    pub ties: u64,
    /// Pages as short as they may be, and longer ones.
    pub lengths: [u64; 2],
    /// Runs of over 10,000 steps, by the quarter of 0 to 1,000,000 in which their budget is.
    pub long: [u64; 4],
}

impl Tally {
    /// Counts what a call answered and left.
    pub fn add(&mut self, budget: u32, halted: bool, answer: Answer, after: &Buffers) {
        let busy = match answer {
            Ok(busy) => busy,
            Err(number) => {
                self.refusals[usize::from(number) - 17] += 1;
                return;
            }
        };
        self.stops[busy.report.stop as usize] += 1;
        for (least, count) in (0..).zip(&mut self.budgets) {
            *count += u64::from(budget == least);
        }
        self.halted += u64::from(halted);
        let words = busy.report.words;
        self.filled += u64::from(words > 0 && words == after.memory.roll.inner().len());
        for (lines, count) in [0, 1, BANK].into_iter().zip(&mut self.pages) {
            *count += u64::from(busy.lines == lines);
        }
        self.ties += u64::from(has_tie(after, busy.lines));
        let shortest = after.page.inner().len() == LINE * BANK;
        self.lengths[usize::from(!shortest)] += 1;
        let quarter = u64::from(budget) * 4 / u64::from(MOST_STEPS + 1);
        self.long[quarter as usize] += u64::from(busy.report.steps > 10_000);
    }
}

/// Whether two addresses have the same count, and not all have it.
fn has_tie(after: &Buffers, lines: usize) -> bool {
    let mut counts: Vec<u32> = after.counters.inner().to_vec();
    counts.retain(|count| *count > 0);
    counts.sort_unstable();
    counts.dedup();
    counts.len() > 1 && counts.len() < lines
}
