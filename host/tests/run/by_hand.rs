//! Whole programs worked out by hand, and what such tests are made of.

use crate::memory::Memory;
use crate::MACHINES;
use cesca::{Flags, Overflow, Report, State, Stop};
use Overflow::{Clear, Unsettled};

/// Checks that every machine reports this and leaves the memory like this.
pub fn check(before: &Memory, budget: u32, start: State, wanted: Report, after: &Memory) {
    for (name, machine) in MACHINES {
        let mut memory = before.clone();
        let found = machine(memory.lend(), budget, start);
        assert_eq!(found, Ok(wanted), "{name}");
        assert!(memory == *after, "{name}: {memory:?}");
    }
}

/// The report of a run that wrote nothing to the roll.
pub fn report(stop: Stop, steps: u32, cycles: u32, state: State) -> Report {
    Report { stop, steps, cycles, words: 0, state }
}

/// Flags: of Z, C and S those named are set.
pub fn flags(set: &str, v: Overflow) -> Flags {
    let [z, c, s] = ['Z', 'C', 'S'].map(|flag| set.contains(flag));
    Flags { z, c, v, s }
}

#[test]
fn listing_a() {
    let memory = Memory::with_words(&[
        [0x30, 0x05], // mov R0, 5: 3 cycles
        [0xA8, 0x04], // call 4: 6
        [0xF0, 0x00], // mov OUT, R0: 3
        [0xF8, 0x00], // hlt: 2
        [0x5E, 0x00], // push R2: 5
        [0x10, 0x01], // add R0, R0, 1: 4
        [0x88, 0x00], // pop R2: 4
        [0xAC, 0x00], // ret: 4
    ]);
    let reached = State {
        regs: [6, 0, 0, 0],
        pc: 4,
        out: 6,
        flags: flags("", Clear),
        halted: true,
        ..State::start()
    };
    let mut after = memory.clone();
    after.stack.inner_mut()[254] = 2;
    for budget in [8, 9, 1_000, 1_000_000] {
        let wanted = report(Stop::Halted, 8, 31, reached);
        check(&memory, budget, State::start(), wanted, &after);
    }
    let before_hlt = State { pc: 3, halted: false, ..reached };
    check(&memory, 7, State::start(), report(Stop::Spent, 7, 29, before_hlt), &after);
}

#[test]
fn the_start_state() {
    let zero = Flags { z: false, c: false, v: Unsettled, s: false };
    let State { regs, pc, sp, out, flags, halted, position } = State::start();
    assert_eq!((regs, pc, sp, out, flags), ([0; 4], 0, 255, 0, zero));
    assert_eq!((halted, position), (false, 0));
}

#[test]
fn carry_after_a_subtraction_is_the_borrow() {
    // sub NONE, R0, R1; jc 9
    let memory = Memory::with_words(&[[0x20, 0x21], [0xB8, 0x09]]);
    let run = |r0, r1, set, pc| {
        let start = State { regs: [r0, r1, 0, 0], ..State::start() };
        let reached = State { pc, flags: flags(set, Clear), ..start };
        check(&memory, 2, start, report(Stop::Spent, 2, 6, reached), &memory);
    };
    run(3, 5, "CS", 9);
    run(5, 3, "", 2);
    run(5, 5, "Z", 2);
}

#[test]
fn a_mask_unsettles_v() {
    // cmp R0, 1; mask R0, 0xF0; jlt 0
    let memory = Memory::with_words(&[[0x24, 0x01], [0x28, 0xF0], [0xD8, 0x00]]);
    let compared = State { pc: 1, flags: flags("CS", Clear), ..State::start() };
    check(&memory, 1, State::start(), report(Stop::Spent, 1, 3, compared), &memory);
    let masked = State { pc: 2, flags: flags("Z", Unsettled), ..State::start() };
    check(&memory, 2, State::start(), report(Stop::Spent, 2, 6, masked), &memory);
    check(&memory, 3, State::start(), report(Stop::Unsettled, 2, 6, masked), &memory);
}

#[test]
fn immediate_forms_set_flags_as_their_functions() {
    let run = |word, r1, d, value, cycles, wanted| {
        let memory = Memory::with_words(&[word]);
        let carry = flags("C", Unsettled);
        let start = State { regs: [0, r1, 0, 0], flags: carry, ..State::start() };
        let mut reached = State { pc: 1, flags: wanted, ..start };
        reached.regs[d] = value;
        check(&memory, 1, start, report(Stop::Spent, 1, cycles, reached), &memory);
    };
    run([0x1D, 0x01], 127, 3, 128, 4, flags("S", Overflow::Set)); // add R3, R1, 1
    run([0x1D, 0xFF], 1, 3, 0, 4, flags("ZC", Clear)); // add R3, R1, 255
    run([0x25, 0x01], 128, 1, 128, 3, flags("", Overflow::Set)); // cmp R1, 1
    run([0x25, 0x01], 0, 1, 0, 3, flags("CS", Clear)); // cmp R1, 1
    run([0x29, 0x80], 255, 1, 255, 3, flags("S", Unsettled)); // mask R1, 0x80
}
