//! Answers that this crate's words don't tell: of states lent with another number of V, and what a
//! refusal comes with.

use super::*;
use cesca_types::{Flags, Overflow};
use std::panic::catch_unwind;

/// The library's answer on a bank of this word, with a roll of no words and no keys.
fn run(word: [u8; 2], budget: u32, start: MaybeUninit<State>) -> RunNumbers {
    let [opcodes, arguments] = word.map(|byte| [byte; 256]);
    run_of(&opcodes, &arguments, budget, start)
}

/// The same on these two banks.
fn run_of(opcodes: &[u8], arguments: &[u8], budget: u32, start: MaybeUninit<State>) -> RunNumbers {
    let (mut ram, mut stack) = ([0u8; 256], [0u8; 256]);
    let lent =
        Lent { opcodes, arguments, keys: &[], ram: &mut ram, stack: &mut stack, roll: &mut [] };
    // SAFETY: `with_v` makes states that are initialised.
    unsafe { call(lent, budget, start) }
}

/// The start state with this number for V.
pub fn with_v(v: u8) -> MaybeUninit<State> {
    let mut start = MaybeUninit::new(State::start());
    // SAFETY: the pointer is to the one byte of V, within the state.
    unsafe { (&raw mut (*start.as_mut_ptr()).flags.v).cast::<u8>().write(v) };
    start
}

#[test]
fn every_other_number_lent_is_unsettled() {
    for v in 2..=255 {
        let jumped = run([0xC0, 0x00], 1, with_v(v)); // jv 0
        assert_eq!((jumped.number, jumped.stop, jumped.steps), (0, 2, 0), "V {v}");
        assert_eq!(jumped.state.flags.v, Overflow::Unsettled, "V {v}");
        let passed = run([0xFC, 0x00], 1, with_v(v)); // nop
        assert_eq!((passed.number, passed.stop, passed.steps), (0, 1, 1), "V {v}");
        assert_eq!(passed.state.flags.v, Overflow::Unsettled, "V {v}");
    }
}

#[test]
fn a_refusal_hands_back_the_number_of_what_was_lent() {
    for v in 0..=255 {
        let refused = run([0xFC, 0x00], 1_000_001, with_v(v));
        assert_eq!((refused.number, refused.state.flags.v as u8), (19, v.min(2)), "V {v}");
    }
}

#[test]
fn a_refusal_comes_with_zeros_and_the_state_lent() {
    let flags = Flags { z: true, c: false, s: true, v: Overflow::Set };
    let lent = State { regs: [1, 2, 3, 4], pc: 5, sp: 6, out: 7, flags, halted: true, position: 0 };
    let past = State { position: 1, ..lent };
    let nops = [0xFC; 256];
    let cases = [(255, 10, lent, 17), (256, 10, past, 18), (256, 1_000_001, lent, 19)];
    for (bank, budget, start, number) in cases {
        let refused = run_of(&nops[..bank], &nops, budget, MaybeUninit::new(start));
        let counts = (refused.stop, refused.steps, refused.cycles, refused.words);
        assert_eq!((refused.number, counts, refused.state), (number, (0, 0, 0, 0), start));
    }
}

#[test]
fn refusals_of_other_numbers_break_the_contract() {
    for number in 1..=255 {
        let run = catch_unwind(|| refused(number)).ok();
        let known = (17..=19).contains(&number);
        assert_eq!(run, known.then(|| Err(Refusal::of_call(number))), "{number}");
        let time = catch_unwind(|| TimeNumbers { number, tenths: 0 }.outcome()).ok();
        let known = (20..=21).contains(&number);
        assert_eq!(time, known.then(|| Err(Refusal::of_call(number))), "{number}");
    }
    assert!(catch_unwind(|| TimeNumbers { number: 20, tenths: 1 }.outcome()).is_err());
    assert_eq!(TimeNumbers { number: 0, tenths: 7 }.outcome(), Ok(7));
}
