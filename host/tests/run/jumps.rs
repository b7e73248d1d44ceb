//! Every jump on every setting of the flags.

use crate::by_hand::{check, report};
use crate::memory::Memory;
use cesca::{Flags, Overflow, State, Stop};

/// A condition on Z, C, V and S.
type Condition = fn(bool, bool, bool, bool) -> bool;

/// The opcodes of the conditional jumps and their conditions, V's value taken as it is.
const JUMPS: [(u8, Condition); 12] = [
    (0xB0, |z, _, _, _| z),                   // jz
    (0xB4, |z, _, _, _| !z),                  // jnz
    (0xB8, |_, c, _, _| c),                   // jc
    (0xBC, |_, c, _, _| !c),                  // jnc
    (0xC0, |_, _, v, _| v),                   // jv
    (0xC4, |_, _, v, _| !v),                  // jnv
    (0xC8, |_, _, _, s| s),                   // jlz
    (0xCC, |_, _, _, s| !s),                  // jp
    (0xD0, |z, _, _, s| !(s | z)),            // jgz
    (0xD4, |z, c, _, _| z | c),               // jleu
    (0xD8, |_, _, v, s| v & !s | !v & s),     // jlt
    (0xDC, |z, _, v, s| v & !s | !v & s | z), // jle
];

/// Every setting of four bits.
fn settings() -> impl Iterator<Item = [bool; 4]> {
    (0..16).map(|number: u8| [8, 4, 2, 1].map(|bit| number & bit != 0))
}

/// Checks a jump to 0x77 at 255, which costs 3 cycles and goes to 0 if it isn't taken.
fn check_jump(word: [u8; 2], start: State, taken: bool) {
    let mut memory = Memory::with_words(&[]);
    memory.put(255, word);
    let start = State { pc: 255, ..start };
    let reached = State { pc: if taken { 0x77 } else { 0 }, ..start };
    check(&memory, 1, start, report(Stop::Spent, 1, 3, reached), &memory);
}

#[test]
fn conditions_with_v_settled() {
    for (opcode, condition) in JUMPS {
        for [z, c, v, s] in settings() {
            let overflow = if v { Overflow::Set } else { Overflow::Clear };
            let start = State { flags: Flags { z, c, v: overflow, s }, ..State::start() };
            check_jump([opcode, 0x77], start, condition(z, c, v, s));
        }
    }
}

#[test]
fn conditions_that_leave_v_alone_need_no_value_of_it() {
    let others = JUMPS.into_iter().filter(|(opcode, _)| ![0xC0, 0xC4, 0xD8, 0xDC].contains(opcode));
    for (opcode, condition) in others {
        for [z, c, v, s] in settings() {
            let start =
                State { flags: Flags { z, c, v: Overflow::Unsettled, s }, ..State::start() };
            check_jump([opcode, 0x77], start, condition(z, c, v, s));
        }
    }
}

#[test]
fn jumps_without_a_condition() {
    check_jump([0xA0, 0x77], State::start(), true);
    let start = State { regs: [1, 2, 0x77, 4], ..State::start() };
    check_jump([0xA6, 0x99], start, true); // jmp R2
}
