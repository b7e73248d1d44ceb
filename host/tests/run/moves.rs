//! V after a register mov, the jumps that test it there, and the transfers that leave it alone.

use crate::by_hand::{check, flags, report};
use crate::memory::{Guarded, Memory};
use cesca::{Flags, Overflow, State, Stop};

/// Function 0000 of R1 to R2, and without a destination: the word, its cycles, and whether R2 is
/// written.
const MOVES: [([u8; 2], u32, bool); 2] = [([0x08, 0x01], 4, true), ([0x20, 0x01], 3, false)];

/// Bytes at the edges of a signed number.
const BYTES: [u8; 5] = [0, 1, 127, 128, 255];

/// The three states of V.
const STATES: [Overflow; 3] = [Overflow::Clear, Overflow::Set, Overflow::Unsettled];

/// Whether a jump is taken after a byte was moved.
type Taken = fn(i8) -> bool;

/// The jumps that test V: with V clear they compare the moved byte with 0.
const TESTERS: [(u8, Taken); 4] = [
    (0xC0, |_| false),        // jv
    (0xC4, |_| true),         // jnv
    (0xD8, |byte| byte < 0),  // jlt
    (0xDC, |byte| byte <= 0), // jle
];

/// Calls `check` with each mov and its cycles, a state before it and the state behind it.
fn each_move(mut check: impl FnMut([u8; 2], u32, State, State)) {
    for (word, cycles, written) in MOVES {
        for byte in BYTES {
            for v in STATES {
                let before = [flags("", v), flags("ZCS", v)];
                for flags in before {
                    let start = State { regs: [9, byte, 7, 5], flags, ..State::start() };
                    let moved = [9, byte, if written { byte } else { 7 }, 5];
                    check(word, cycles, start, behind(start, moved));
                }
            }
        }
    }
}

/// The state behind a mov that leaves these registers, of which R1 was moved.
fn behind(start: State, regs: [u8; 4]) -> State {
    let byte = regs[1];
    let flags = Flags { z: byte == 0, c: false, v: Overflow::Clear, s: byte > 127 };
    State { regs, pc: 1, flags, ..start }
}

#[test]
fn a_register_mov_clears_v() {
    each_move(|word, cycles, start, moved| {
        let memory = Memory::with_words(&[word]);
        check(&memory, 1, start, report(Stop::Spent, 1, cycles, moved), &memory);
    });
}

#[test]
fn a_jump_on_v_behind_it_has_a_defined_outcome() {
    for (opcode, taken) in TESTERS {
        each_move(|word, cycles, start, moved| {
            let memory = Memory::with_words(&[word, [opcode, 0x77]]);
            let taken = taken(moved.regs[1].cast_signed());
            let reached = State { pc: if taken { 0x77 } else { 2 }, ..moved };
            check(&memory, 2, start, report(Stop::Spent, 2, cycles + 3, reached), &memory);
        });
    }
}

/// Words that put a byte into R0 and leave the flags, R1 being 5 and SP 254: cycles, SP behind them,
/// and the stack's byte at 254.
const TRANSFERS: [([u8; 2], u32, u8, u8); 6] = [
    ([0x30, 0x85], 3, 254, 0x85), // mov R0, 0x85
    ([0x40, 0x00], 4, 254, 0x85), // mov R0, IN
    ([0x60, 0x05], 4, 254, 0x85), // mov R0, [5]
    ([0x71, 0x00], 4, 254, 0x85), // mov R0, [R1]
    ([0x80, 0x00], 4, 255, 0x85), // pop R0
    ([0x91, 0x00], 5, 254, 0x05), // swap R0, R1
];

/// Banks with this word, and the byte 0x85 wherever one may come from.
fn with_byte(word: [u8; 2]) -> Memory {
    let mut memory = Memory::with_words(&[word]);
    memory.keys = Guarded::new([0x85]);
    memory.ram.inner_mut()[5] = 0x85;
    memory.stack.inner_mut()[254] = 0x85;
    memory
}

#[test]
fn other_ways_to_fill_a_register_leave_v() {
    for (word, cycles, sp, stored) in TRANSFERS {
        let memory = with_byte(word);
        let mut after = memory.clone();
        after.stack.inner_mut()[254] = stored;
        for flags in STATES.into_iter().flat_map(|v| [flags("", v), flags("ZCS", v)]) {
            let start = State { regs: [0, 5, 0, 0], sp: 254, flags, ..State::start() };
            let reached = State { regs: [0x85, 5, 0, 0], pc: 1, sp, ..start };
            check(&memory, 1, start, report(Stop::Spent, 1, cycles, reached), &after);
        }
    }
}
