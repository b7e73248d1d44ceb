//! The ALU functions of two bytes, and the conditional jumps after a comparison.

use super::print::flags;
use crate::memory::Memory;
use crate::Machine;
use cesca::State;

/// The state that a program halts in, from R0 and R1.
fn reached(machine: Machine, words: &[[u8; 2]], r0: u8, r1: u8) -> State {
    let start = State { regs: [r0, r1, 0, 0], ..State::start() };
    machine(Memory::with_words(words).lend(), 100, start).expect("nothing to refuse").state
}

/// A line for each ALU function of R0 and R1 after cmp 0, 1 has set the carry.
pub fn functions(machine: Machine, r0: u8, r1: u8) -> Vec<String> {
    let line = |function: u8| {
        // cmp R2, 1; the function R3, R0, R1; hlt
        let words = [[0x26, 1], [0x0C, function * 16 + 1], [0xF8, 0]];
        let State { regs, flags: set, .. } = reached(machine, &words, r0, r1);
        format!("{function} gives {} {}", regs[3], flags(set))
    };
    (0..16).map(line).collect()
}

/// A letter for each conditional jump after cmp of R0 with an immediate: T where it jumps, F where
/// it goes on.
pub fn jumps(machine: Machine, r0: u8, imm: u8) -> String {
    let taken = |jump: u8| {
        // cmp R0, imm; the jump to 3; hlt; nop; hlt
        let words = [[0x24, imm], [0xB0 + 4 * jump, 3], [0xF8, 0], [0xFC, 0], [0xF8, 0]];
        match reached(machine, &words, r0, 0).pc {
            5 => 'T',
            3 => 'F',
            _ => '?',
        }
    };
    let taken: String = (0..12).map(taken).collect();
    format!("jumps after cmp {r0}, {imm}: {taken}")
}
