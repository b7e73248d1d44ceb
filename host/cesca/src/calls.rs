//! The calls of the proved library for people who keep their own buffers: a safe function for each
//! one that it exports, but for text, which `source` has, drawing, which `draw` has, shelf files,
//! which `shelf` has, busy runs, which `busy` has, and turns, which `turns` has.

use crate::raw;
use cesca_types::{AluAnswer, Facts, Fields, Lent, Refusal, Report, State};
use std::mem::MaybeUninit;

/// The form and fields of a two-byte word, opcode first; free bits are ignored.
///
/// Fields that the form's machine code doesn't have are 0.
pub fn decode(word: [u8; 2]) -> Fields {
    let [opcode, argument] = word;
    // SAFETY: plain numbers in and out; the library asks nothing of them.
    unsafe { raw::cesca_decode(opcode, argument) }
}

/// The two-byte word of these fields, opcode first and free bits 0, or why there is none.
///
/// Fields that the form's machine code doesn't have are ignored.
pub fn encode(fields: Fields) -> Result<[u8; 2], Refusal> {
    // SAFETY: plain numbers in and out; the library asks nothing of them.
    let answer = unsafe { raw::cesca_encode(fields) };
    let word = [answer.opcode, answer.argument];
    raw::outcome(answer.number).map(|()| word).inspect_err(|_| {
        assert_eq!(word, [0, 0], "a refusal comes with zero bytes: {fields:?}");
    })
}

/// Whether the word of these fields now stands at address `at` of the two banks.
///
/// A refusal leaves both banks as they were: first banks that aren't of 256 bytes, then
/// whatever [`encode`] refuses.
pub fn put(
    fields: Fields,
    opcodes: &mut [u8],
    arguments: &mut [u8],
    at: u8,
) -> Result<(), Refusal> {
    // SAFETY: both pointers come with the length of the slice behind them, and the slices are
    // borrowed for writing during the call, so they don't overlap.
    let number = unsafe {
        raw::cesca_put(
            fields,
            opcodes.as_mut_ptr(),
            opcodes.len(),
            arguments.as_mut_ptr(),
            arguments.len(),
            at,
        )
    };
    raw::outcome(number)
}

/// The result and flags of an ALU function on `x` (Ra), `y` (Rb) and the carry flag before.
///
/// A function number over 15 is taken as 15.
pub fn alu(function: u8, x: u8, y: u8, c: bool) -> AluAnswer {
    // SAFETY: plain numbers in and out; the library asks nothing of them.
    unsafe { raw::cesca_alu(function, x, y, c) }.into()
}

/// What a checker needs to know of an instruction: cycles, way on, and its effect on V.
///
/// A function number over 15 is taken as 15.
pub fn facts(fields: Fields) -> Facts {
    // SAFETY: plain numbers in and out; the library asks nothing of them.
    unsafe { raw::cesca_facts(fields) }.into()
}

/// Success if the listing is admitted, else the first ground that refuses it.
///
/// The slices may have any length; nothing is written to them.
// Inlined, so that the slices go to the library without being stored and loaded again.
#[inline]
pub fn admit(opcodes: &[u8], arguments: &[u8], sheet: &[u8], list: &[u8]) -> Result<(), Refusal> {
    // SAFETY: each pointer comes with the length of the slice behind it, which is only read.
    let answer = unsafe {
        raw::admit::cesca_admit(
            opcodes.as_ptr(),
            opcodes.len(),
            arguments.as_ptr(),
            arguments.len(),
            sheet.as_ptr(),
            sheet.len(),
            list.as_ptr(),
            list.len(),
        )
    };
    raw::admit::outcome(answer)
}

/// What a run of at most `budget` steps from `start` reports, or why there is none.
///
/// The roll is written from its beginning, and what lies past the words written is kept. A
/// refusal leaves everything lent as it was: first a bank that isn't of 256 bytes, then a key
/// position past the end of the keys, then a budget over [`MOST_STEPS`].
///
/// [`MOST_STEPS`]: crate::MOST_STEPS
// Inlined, so that what is lent goes to the library without being stored and loaded again.
#[inline]
pub fn run(lent: Lent<'_>, budget: u32, start: State) -> Result<Report, Refusal> {
    // SAFETY: the state is a whole one.
    unsafe { raw::run::call(lent, budget, MaybeUninit::new(start)) }.outcome()
}

/// The time of so many cycles at a clock in Hz, in tenths of a second, or why none is told.
///
/// It is rounded to the nearest tenth, a half going up. First a clock of 0 or over
/// [`FASTEST_CLOCK`] is refused, then cycles over [`MOST_CYCLES`].
///
/// [`FASTEST_CLOCK`]: crate::FASTEST_CLOCK
/// [`MOST_CYCLES`]: crate::MOST_CYCLES
pub fn running_time(cycles: u32, clock: u32) -> Result<u32, Refusal> {
    // SAFETY: plain numbers in and out; the library asks nothing of them.
    unsafe { raw::run::cesca_running_time(cycles, clock) }.outcome()
}
