//! Runs that count how often each address executes and write the page of busy addresses.

use crate::raw;
use crate::text::bytes;
use cesca_types::{BusyReport, Lent, Records, Refusal, Report, State, BANK};
use std::mem::MaybeUninit;

/// What a busy run on a [`Board`](crate::Board) comes to: its report, and where its steps went.
#[derive(Clone, Debug, PartialEq, Eq)]
pub struct Busy {
    /// What the run reports.
    pub report: Report,
    /// How often each address executed; they add up to the steps.
    pub counters: [u32; BANK],
    /// The page: a line for each address executed, the largest count first, of equal counts the
    /// lower address.
    ///
    /// A line has 34 characters and a line feed: the address as two hexadecimal digits, a space,
    /// the count right-aligned in 7, a space, the instruction's text left-aligned in 23.
    pub page: String,
}

/// What a run of at most `budget` steps from `start` reports, which also counts how often each
/// address executes and writes the page of them; or why there is none.
///
/// Report, banks and roll are as after [`run`](crate::run()). All 256 counters are set, to 0 where
/// nothing executed. The page begins with its lines, [`LINE`](crate::LINE) bytes each, and what
/// lies past them is kept. A refusal leaves everything lent as it was: first (17) a bank that isn't
/// of 256 bytes, counters that aren't 256, or a page buffer under 8,960 bytes
/// ([`PAGE`](crate::PAGE)); then a key position past the end of the keys (18), then a budget over
/// [`MOST_STEPS`](crate::MOST_STEPS) (19).
///
/// ```
/// use cesca::{Lent, Records, State, LINE, PAGE};
///
/// # fn main() -> Result<(), Box<dyn std::error::Error>> {
/// let banks = cesca::assemble(b"mov R0, 3\nloop: dec R0\njnz loop\nhlt\n")?;
/// let (mut ram, mut stack, mut counters, mut page) = ([0; 256], [0; 256], [0; 256], [0; PAGE]);
/// let lent = Lent {
///     opcodes: &banks.opcodes,
///     arguments: &banks.arguments,
///     keys: &[],
///     ram: &mut ram,
///     stack: &mut stack,
///     roll: &mut [],
/// };
/// let records = Records { counters: &mut counters, page: &mut page };
/// let busy = cesca::run_busy(lent, records, 1_000, State::start())?;
/// assert_eq!((busy.report.steps, busy.lines), (8, 4));
/// assert_eq!(counters[..5], [1, 3, 3, 1, 0]);
/// assert_eq!(&page[..LINE], b"01       3 add R0, R0, 255        \n");
/// # Ok(())
/// # }
/// ```
#[inline]
pub fn run_busy(
    lent: Lent<'_>,
    records: Records<'_>,
    budget: u32,
    start: State,
) -> Result<BusyReport, Refusal> {
    let banks = [lent.opcodes.len(), lent.arguments.len(), lent.ram.len(), lent.stack.len()];
    let lengths = [records.counters.len(), records.page.len()];
    // SAFETY: the state is a whole one.
    let answer = unsafe { raw::busy::call(lent, records, budget, MaybeUninit::new(start)) };
    answer
        .outcome()
        .map_err(|refusal| if banks == [BANK; 4] { sized(refusal, lengths) } else { refusal })
}

/// The refusal with the length that is wrong, where every bank has its own: the general words of 17
/// are about banks.
#[cold]
fn sized(refusal: Refusal, lengths: [usize; 2]) -> Refusal {
    let words = match (refusal.number(), lengths) {
        (17, [BANK, page]) => format!("the page's buffer has {}, under 8,960", bytes(page)),
        (17, [counters, _]) => format!("the number of counters is {counters}, not {BANK}"),
        _ => return refusal,
    };
    refusal.with_words(words)
}

#[cfg(test)]
mod tests {
    use super::*;

    /// The refusal of a run of `nop`s with a bank and records of these lengths, from a key
    /// position, once it has left what it was lent.
    fn refused(bank: usize, lengths: [usize; 2], position: usize, budget: u32) -> String {
        let nops = [0xFC; BANK];
        let (mut ram, mut stack, mut roll) = (vec![1; bank], [2; BANK], [3; 4]);
        let (mut counters, mut page) = (vec![4; lengths[0]], vec![5; lengths[1]]);
        let lent = Lent {
            opcodes: &nops,
            arguments: &nops,
            keys: &[],
            ram: &mut ram,
            stack: &mut stack,
            roll: &mut roll,
        };
        let records = Records { counters: &mut counters, page: &mut page };
        let start = State { position, ..State::start() };
        let refusal = run_busy(lent, records, budget, start).expect_err("a refusal");
        assert_eq!((ram, stack, roll), (vec![1; bank], [2; BANK], [3; 4]), "{refusal}");
        let kept = (vec![4; lengths[0]], vec![5; lengths[1]]);
        assert_eq!((counters, page), kept, "{refusal}");
        refusal.to_string()
    }

    #[test]
    fn seventeen_tells_which_length_is_wrong() {
        let counters = "17: the number of counters is 255, not 256";
        assert_eq!(refused(256, [255, 8_960], 0, 1), counters);
        assert_eq!(refused(256, [255, 8_959], 1, u32::MAX), counters);
        let page = "17: the page's buffer has 8959 bytes, under 8,960";
        assert_eq!(refused(256, [256, 8_959], 0, 1), page);
        assert_eq!(refused(256, [256, 8_959], 1, u32::MAX), page);
        let none = "17: the page's buffer has 0 bytes, under 8,960";
        assert_eq!(refused(256, [256, 0], 0, 1), none);
        let bank = "17: a bank is not 256 bytes";
        assert_eq!(refused(255, [256, 8_960], 0, 1), bank);
        assert_eq!(refused(255, [0, 0], 1, u32::MAX), bank);
    }

    #[test]
    fn other_refusals_are_told_as_those_of_a_run() {
        let keys = "18: the key position is past the end of the keys";
        assert_eq!(refused(256, [256, 8_960], 1, u32::MAX), keys);
        let budget = "19: the budget is over 1,000,000 steps";
        assert_eq!(refused(256, [256, 9_000], 0, 1_000_001), budget);
    }
}
