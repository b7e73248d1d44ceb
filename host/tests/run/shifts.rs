//! The four shifts as steps of a run, and rols in a row.

use crate::by_hand::{check, flags, report};
use crate::memory::Memory;
use cesca::{Flags, Overflow, State, Stop};
use Overflow::{Clear, Set, Unsettled};

/// A shift's result and carry.
type Shift = fn(u8) -> (u8, bool);

/// The shifts by their function numbers, in Rust's own words for them.
const SHIFTS: [(u8, Shift); 4] = [
    (0b1100, |byte| byte.overflowing_add(byte)),
    (0b1101, |byte| (byte >> 1, false)),
    (0b1110, |byte| ((byte.cast_signed() >> 1).cast_unsigned(), false)),
    (0b1111, |byte| (byte.rotate_left(1), byte > 127)),
];

/// The flags behind a shift.
fn behind(value: u8, c: bool) -> Flags {
    Flags { z: value == 0, c, v: Unsettled, s: value > 127 }
}

/// Checks a step that shifts R1, with R3 in Rb's place: to R2, and to nowhere.
fn check_step(function: u8, start: State, value: u8, c: bool) {
    for (opcode, cycles, destination) in [(0x09, 4, Some(2)), (0x21, 3, None)] {
        let memory = Memory::with_words(&[[opcode, function << 4 | 3]]);
        let mut reached = State { pc: 1, flags: behind(value, c), ..start };
        if let Some(register) = destination {
            reached.regs[register] = value;
        }
        check(&memory, 1, start, report(Stop::Spent, 1, cycles, reached), &memory);
    }
}

#[test]
fn each_shift_of_each_byte() {
    for (function, shift) in SHIFTS {
        for byte in 0..=255 {
            let (value, c) = shift(byte);
            for before in [flags("", Set), flags("C", Clear), flags("ZCS", Unsettled)] {
                let start = State { regs: [9, byte, 7, 5], flags: before, ..State::start() };
                check_step(function, start, value, c);
            }
        }
    }
}

#[test]
fn eight_rols_in_a_row_give_a_register_back() {
    // rol R2, R2, eight times, of 4 cycles each; the last bit that goes out is the byte's bit 0
    let memory = Memory::with_words(&[[0x0A, 0xF0]; 8]);
    for byte in 0..=255 {
        for before in [flags("", Clear), flags("C", Set)] {
            let start = State { regs: [9, 8, byte, 7], flags: before, ..State::start() };
            let reached = State { pc: 8, flags: behind(byte, byte % 2 == 1), ..start };
            check(&memory, 8, start, report(Stop::Spent, 8, 32, reached), &memory);
        }
    }
}
