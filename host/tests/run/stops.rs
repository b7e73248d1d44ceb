//! The four stops by hand, and which of them comes first.

use crate::by_hand::{check, flags, report};
use crate::memory::{Guarded, Memory};
use cesca::{Overflow, Report, State, Stop};

/// The words that test V: jv, jnv, jlt, jle.
const TESTERS: [[u8; 2]; 4] = [[0xC0, 0x50], [0xC4, 0x50], [0xD8, 0x50], [0xDC, 0x50]];

/// The words that write to the roll: LCDcmd, LCD Imm8, LCD R0, LCD [0x50].
const WRITERS: [[u8; 2]; 4] = [[0xE0, 0x50], [0xE4, 0x50], [0xE8, 0x50], [0xEC, 0x50]];

/// Checks a run that makes no step.
fn check_still(memory: &Memory, budget: u32, start: State, stop: Stop) {
    check(memory, budget, start, report(stop, 0, 0, start), memory);
}

#[test]
fn hlt_is_a_step_and_leaves_pc_past_itself() {
    let mut memory = Memory::with_words(&[[0xF8, 0x00]]);
    memory.put(255, [0xFB, 0xFF]);
    for (pc, past) in [(0, 1), (255, 0)] {
        let start = State { pc, ..State::start() };
        let reached = State { pc: past, halted: true, ..start };
        for budget in [1, 2, 1_000_000] {
            check(&memory, budget, start, report(Stop::Halted, 1, 2, reached), &memory);
        }
    }
}

#[test]
fn a_halted_state_stays() {
    let halted = State { regs: [1, 2, 3, 4], pc: 9, halted: true, ..State::start() };
    for word in [[0xFC, 0x00]].iter().chain(&TESTERS).chain(&WRITERS) {
        let memory = Memory::with_words(&[*word; 256]);
        for budget in [0, 1, 1_000_000] {
            check_still(&memory, budget, halted, Stop::Halted);
        }
    }
}

#[test]
fn no_budget_is_spent_at_once() {
    for word in [[0xF8, 0x00]].iter().chain(&TESTERS).chain(&WRITERS) {
        check_still(&Memory::with_words(&[*word]), 0, State::start(), Stop::Spent);
    }
}

#[test]
fn a_test_of_unsettled_v_stops() {
    for word in TESTERS {
        let memory = Memory::with_words(&[word]);
        for set in ["", "Z", "C", "S", "ZC", "ZS", "CS", "ZCS"] {
            let flags = flags(set, Overflow::Unsettled);
            check_still(&memory, 1, State { flags, ..State::start() }, Stop::Unsettled);
        }
    }
}

#[test]
fn a_roll_of_no_words_is_full() {
    for word in WRITERS {
        check_still(&Memory::with_words(&[word]), 1, State::start(), Stop::Full);
    }
}

#[test]
fn a_roll_is_full_after_its_last_word() {
    // mov LCDcmd, 0x38; mov LCD, 0x41; mov LCD, R1; mov LCD, [5]
    let words = [[0xE0, 0x38], [0xE4, 0x41], [0xE9, 0x00], [0xEC, 0x05]];
    let mut memory = Memory::with_words(&words);
    memory.ram.inner_mut()[5] = 0xFE;
    let start = State { regs: [0, 0xCD, 0, 0], ..State::start() };
    let mut run = |stop, steps, cycles, roll: &[u16]| {
        memory.roll = Guarded::new(vec![999; roll.len()]);
        let mut after = memory.clone();
        after.roll = Guarded::new(roll.iter().copied());
        let state = State { pc: steps as u8, ..start };
        let wanted = Report { words: steps as usize, ..report(stop, steps, cycles, state) };
        check(&memory, 4, start, wanted, &after);
    };
    run(Stop::Full, 1, 3, &[0x138]);
    run(Stop::Full, 2, 6, &[0x138, 0x41]);
    run(Stop::Full, 3, 9, &[0x138, 0x41, 0xCD]);
    run(Stop::Spent, 4, 13, &[0x138, 0x41, 0xCD, 0xFE]);
    run(Stop::Spent, 4, 13, &[0x138, 0x41, 0xCD, 0xFE, 999, 999]);
}

#[test]
fn the_whole_budget() {
    let nops = Memory::with_words(&[[0xFC, 0x00]; 256]);
    // 1,000,000 is 3,906 times round the bank and 64 more.
    let reached = State { pc: 64, ..State::start() };
    let wanted = report(Stop::Spent, 1_000_000, 8_000_000, reached);
    check(&nops, 1_000_000, State::start(), wanted, &nops);
    let jump = Memory::with_words(&[[0xA0, 0x00]]);
    let wanted = report(Stop::Spent, 1_000_000, 3_000_000, State::start());
    check(&jump, 1_000_000, State::start(), wanted, &jump);
}
