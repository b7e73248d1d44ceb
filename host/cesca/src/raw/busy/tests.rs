//! Answers that this crate's words don't tell: the numbers of a busy run are those of the run.

use super::*;
use crate::raw::run;
use crate::raw::run::tests::with_v;
use cesca_types::{Report, Stop, PAGE};
use std::panic::catch_unwind;

/// The numbers of a run.
fn numbers(run: &RunNumbers) -> (u8, u8, [u32; 2], usize, State) {
    (run.number, run.stop, [run.steps, run.cycles], run.words, run.state)
}

/// A bank of data and one of the stack lent beside two banks of a word, with no keys and a roll of
/// no words.
fn lent<'a>(word: &'a [[u8; BANK]; 2], ram: &'a mut [u8], stack: &'a mut [u8]) -> Lent<'a> {
    let [opcodes, arguments] = word;
    Lent { opcodes, arguments, keys: &[], ram, stack, roll: &mut [] }
}

/// The number of lines that the library answers on banks of this word with so many counters, once
/// its other numbers are found to be those of a run with so many bytes of data.
fn lines(word: [u8; 2], counters: usize, data: usize, budget: u32, v: u8) -> usize {
    let word = word.map(|byte| [byte; BANK]);
    let (mut ram, mut stack) = ([0; BANK], [0; BANK]);
    let (mut counters, mut page) = (vec![7; counters], [7; PAGE]);
    let records = Records { counters: &mut counters, page: &mut page };
    // SAFETY: `with_v` makes states that are initialised.
    let wanted = unsafe { run::call(lent(&word, &mut ram[..data], &mut stack), budget, with_v(v)) };
    // SAFETY: the same.
    let found = unsafe { call(lent(&word, &mut ram, &mut stack), records, budget, with_v(v)) };
    assert_eq!(numbers(&found.run), numbers(&wanted), "budget {budget}, V {v}");
    found.lines
}

#[test]
fn the_numbers_are_those_of_the_run_with_any_number_for_v() {
    for v in 0..=255 {
        // jv 0 goes on, stays where it is, or stops.
        let jumps = [2, 1, 0][usize::from(v.min(2))];
        assert_eq!(lines([0xC0, 0x00], BANK, BANK, 2, v), jumps, "V {v}");
        assert_eq!(lines([0xFC, 0x00], BANK, BANK, 3, v), 3, "V {v}"); // nop
        assert_eq!(lines([0xFC, 0x00], BANK, BANK, 1_000_001, v), 0, "V {v}");
    }
}

#[test]
fn a_refusal_of_counters_is_that_of_a_bank() {
    for v in 0..=255 {
        for budget in [0, 1, 1_000_001] {
            assert_eq!(lines([0xFC, 0x00], 255, 255, budget, v), 0, "V {v}");
        }
    }
}

/// A busy run's answer with this number, made from the start state without a step.
fn answered(number: u8, lines: usize) -> Option<Result<BusyReport, Refusal>> {
    let run = RunNumbers { number, stop: 1, steps: 0, cycles: 0, words: 0, state: State::start() };
    catch_unwind(|| BusyNumbers { run, lines }.outcome()).ok()
}

#[test]
fn lines_and_refusals() {
    let (stop, state) = (Stop::Spent, State::start());
    let report = Report { stop, steps: 0, cycles: 0, words: 0, state };
    for lines in [0, 1, 255, 256, 257, usize::MAX] {
        let wanted = (lines <= 256).then_some(Ok(BusyReport { report, lines }));
        assert_eq!(answered(0, lines), wanted, "{lines}");
    }
    for number in 1..=255 {
        let refusal = (17..=19).contains(&number).then(|| Err(Refusal::of_call(number)));
        assert_eq!(answered(number, 0), refusal, "{number}");
        assert_eq!([answered(number, 1), answered(number, 256)], [None, None], "{number}");
    }
}
