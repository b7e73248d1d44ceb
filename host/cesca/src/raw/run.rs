//! The exports for runs and running times, and their answers read into this crate's words.

use super::unknown;
use cesca_types::{Lent, Refusal, Report, State, Stop};
use std::mem::MaybeUninit;

/// A run's answer: 0 and the report, or a ground's number, zeros and the state lent.
#[repr(C)]
pub struct RunNumbers {
    pub(super) number: u8,
    pub(super) stop: u8,
    pub(super) steps: u32,
    pub(super) cycles: u32,
    pub(super) words: usize,
    pub(super) state: State,
}

/// A running time's answer: 0 and the tenths of a second, or a ground's number and 0.
#[repr(C)]
pub struct TimeNumbers {
    number: u8,
    tenths: u32,
}

extern "C" {
    fn cesca_run(
        opcodes: *const u8,
        opcodes_len: usize,
        arguments: *const u8,
        arguments_len: usize,
        keys: *const u8,
        keys_len: usize,
        ram: *mut u8,
        ram_len: usize,
        stack: *mut u8,
        stack_len: usize,
        roll: *mut u16,
        roll_len: usize,
        budget: u32,
        start: MaybeUninit<State>,
    ) -> RunNumbers;
    pub fn cesca_running_time(cycles: u32, clock: u32) -> TimeNumbers;
}

/// The library's answer on a run.
///
/// # Safety
///
/// The state is initialised; only its V may be a number that is no value of V.
#[inline]
pub unsafe fn call(lent: Lent<'_>, budget: u32, start: MaybeUninit<State>) -> RunNumbers {
    let Lent { opcodes, arguments, keys, ram, stack, roll } = lent;
    // SAFETY: each pointer comes with the length of the slice behind it, and the slices written
    // to are borrowed for writing during the call, so they overlap nothing. The library takes any
    // number for V; by its contract the flags that come back are 0 or 1, and V one of its values.
    unsafe {
        cesca_run(
            opcodes.as_ptr(),
            opcodes.len(),
            arguments.as_ptr(),
            arguments.len(),
            keys.as_ptr(),
            keys.len(),
            ram.as_mut_ptr(),
            ram.len(),
            stack.as_mut_ptr(),
            stack.len(),
            roll.as_mut_ptr(),
            roll.len(),
            budget,
            start,
        )
    }
}

impl RunNumbers {
    /// The report for 0, else the refusal of that number. What else a refusal comes with is proved
    /// of the library and isn't looked at, so that a run keeps no copy of the state lent.
    #[inline]
    pub fn outcome(self) -> Result<Report, Refusal> {
        match self.number {
            0 => Ok(self.into()),
            number => refused(number),
        }
    }
}

impl TimeNumbers {
    /// The tenths of a second for 0, else the refusal of that number.
    pub fn outcome(self) -> Result<u32, Refusal> {
        match self.number {
            0 => return Ok(self.tenths),
            20 | 21 => assert_eq!(self.tenths, 0, "a refusal comes with no time"),
            _ => unknown("refusal of a time", self.number),
        }
        Err(Refusal::of_call(self.number))
    }
}

impl From<RunNumbers> for Report {
    #[inline]
    fn from(raw: RunNumbers) -> Report {
        let RunNumbers { steps, cycles, words, state, .. } = raw;
        Report { stop: stop(raw.stop), steps, cycles, words, state }
    }
}

/// The refusal with this number, handed back as the whole answer of a run: a refusal alone would
/// have to be put where a report may stand, and every report copied once more.
#[cold]
#[inline(never)]
fn refused(number: u8) -> Result<Report, Refusal> {
    match number {
        17..=19 => Err(Refusal::of_call(number)),
        _ => unknown("refusal of a run", number),
    }
}

/// The stop with this number.
#[inline]
pub(super) fn stop(number: u8) -> Stop {
    match number {
        0 => Stop::Halted,
        1 => Stop::Spent,
        2 => Stop::Unsettled,
        3 => Stop::Full,
        _ => unknown("stop", number),
    }
}

#[cfg(test)]
pub(super) mod tests;
