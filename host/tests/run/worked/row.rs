//! A run as a row of a table.

use super::print::{numbers, report};
use crate::memory::{Guarded, Memory};
use crate::Machine;
use cesca::{State, BANK};

/// A run: a program keyed in at an address, the keys, the budget and the state to start from.
pub struct Row {
    pub name: &'static str,
    /// The words in hexadecimal, opcode and argument of each.
    pub words: &'static str,
    pub at: u8,
    pub keys: &'static [u8],
    pub budget: u32,
    pub start: State,
}

impl Row {
    /// A run of 1,000 steps at most from the start state, keyed in at 0, without keys.
    pub fn new(name: &'static str, words: &'static str) -> Row {
        Row { name, words, at: 0, keys: &[], budget: 1_000, start: State::start() }
    }

    /// What the run is lent: data of 0, a stack of 170 and a roll of four words.
    pub fn memory(&self) -> Memory {
        let mut memory = Memory::with_words(&[]);
        for (place, word) in (0..).zip(self.words.split_whitespace()) {
            let word = u16::from_str_radix(word, 16).expect("a word");
            memory.put(self.at.wrapping_add(place), word.to_be_bytes());
        }
        memory.keys = Guarded::new(self.keys.iter().copied());
        memory.stack = Guarded::new([170; BANK]);
        memory.roll = Guarded::new([0; 4]);
        memory
    }

    /// The line of a machine's run: its report, the data byte at 16, the stack's last three bytes
    /// and the roll.
    pub fn line(&self, machine: Machine) -> String {
        let mut memory = self.memory();
        let outcome = machine(memory.lend(), self.budget, self.start);
        let report = report(&outcome, self.start);
        let Memory { ram, stack, roll, .. } = &memory;
        let (ram, stack, roll) = (ram.inner()[16], &stack.inner()[253..], roll.inner());
        let (stack, roll) = (numbers(stack), numbers(roll));
        format!("{}: {report} ram16 {ram} stack {stack} roll {roll}", self.name)
    }
}

/// The start state with R0 and SP.
pub fn with(r0: u8, sp: u8) -> State {
    State { regs: [r0, 0, 0, 0], sp, ..State::start() }
}

/// The start state with PC.
pub fn at(pc: u8) -> State {
    State { pc, ..State::start() }
}

/// The same, halted.
pub fn halted(pc: u8) -> State {
    State { halted: true, ..at(pc) }
}

/// The start state at a key position.
pub fn at_key(position: usize) -> State {
    State { position, ..State::start() }
}
