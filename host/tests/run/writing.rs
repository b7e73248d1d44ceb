//! What refused runs are lent: a program that would write to everything, were it run.

use crate::memory::{Guarded, Memory};
use cesca::State;

/// A program that would write to ram, stack and roll, with two keys and a roll of one word.
pub fn memory() -> Memory {
    // mov [R0], R0; push R1; mov LCD, 5; hlt
    let words = [[0x58, 0x00], [0x5D, 0x00], [0xE4, 0x05], [0xF8, 0x00]];
    let mut memory = Memory::with_words(&words);
    memory.keys = Guarded::new([1, 2]);
    memory.roll = Guarded::new([7]);
    memory
}

/// The start state with other registers and this position.
pub fn start(position: usize) -> State {
    State { regs: [1, 2, 3, 4], position, ..State::start() }
}
