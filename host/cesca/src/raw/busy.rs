//! The export for runs that keep a page of busy addresses, and its answer read into this crate's
//! words.

use super::run::RunNumbers;
use super::unknown;
use cesca_types::{BusyReport, Lent, Records, Refusal, State, BANK};
use std::mem::MaybeUninit;

/// A busy run's answer: that of a run, and the number of lines, 0 for a refusal.
#[repr(C)]
pub struct BusyNumbers {
    run: RunNumbers,
    lines: usize,
}

extern "C" {
    fn cesca_run_busy(
        opcodes: *const u8,
        opcodes_len: usize,
        arguments: *const u8,
        arguments_len: usize,
        keys: *const u8,
        keys_len: usize,
        ram: *mut u8,
        ram_len: usize,
        stack: *mut u8,
        stack_len: usize,
        roll: *mut u16,
        roll_len: usize,
        counters: *mut u32,
        counters_len: usize,
        page: *mut u8,
        page_len: usize,
        budget: u32,
        start: MaybeUninit<State>,
    ) -> BusyNumbers;
}

/// The library's answer on a busy run.
///
/// # Safety
///
/// The state is initialised; only its V may be a number that is no value of V.
#[inline]
pub unsafe fn call(
    lent: Lent<'_>,
    records: Records<'_>,
    budget: u32,
    start: MaybeUninit<State>,
) -> BusyNumbers {
    let Lent { opcodes, arguments, keys, ram, stack, roll } = lent;
    let Records { counters, page } = records;
    // SAFETY: each pointer comes with the length of the slice behind it, and the slices written
    // to are borrowed for writing during the call, so they overlap nothing. The library takes any
    // number for V; by its contract the flags that come back are 0 or 1, and V one of its values.
    unsafe {
        cesca_run_busy(
            opcodes.as_ptr(),
            opcodes.len(),
            arguments.as_ptr(),
            arguments.len(),
            keys.as_ptr(),
            keys.len(),
            ram.as_mut_ptr(),
            ram.len(),
            stack.as_mut_ptr(),
            stack.len(),
            roll.as_mut_ptr(),
            roll.len(),
            counters.as_mut_ptr(),
            counters.len(),
            page.as_mut_ptr(),
            page.len(),
            budget,
            start,
        )
    }
}

impl BusyNumbers {
    /// The report and the number of lines, or the refusal of the run's number.
    #[inline]
    pub fn outcome(self) -> Result<BusyReport, Refusal> {
        let lines = self.lines;
        match self.run.outcome() {
            Ok(report) if lines <= BANK => Ok(BusyReport { report, lines }),
            Err(refusal) if lines == 0 => Err(refusal),
            _ => unknown("number of lines", lines),
        }
    }
}

#[cfg(test)]
mod tests;
