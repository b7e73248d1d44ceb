//! The words of a run: what it is lent, where it starts, what it reports.

use crate::Overflow;
use std::fmt::{self, Display, Formatter};

/// What a run is lent: the four banks, keys to read and a roll to write.
#[derive(Debug)]
pub struct Lent<'a> {
    /// The bank of opcodes.
    pub opcodes: &'a [u8],
    /// The bank of arguments.
    pub arguments: &'a [u8],
    /// The keys, first one first.
    pub keys: &'a [u8],
    /// The bank of data.
    pub ram: &'a mut [u8],
    /// The bank of the stack.
    pub stack: &'a mut [u8],
    /// The LCD transfers: a byte for data, 256 more for a command.
    pub roll: &'a mut [u16],
}

/// The four flags, laid out as the library has them.
#[repr(C)]
#[derive(Clone, Copy, Debug, PartialEq, Eq)]
pub struct Flags {
    /// The last result was 0.
    pub z: bool,
    /// Carry or borrow.
    pub c: bool,
    /// Bit 7 of the last result.
    pub s: bool,
    /// Signed overflow.
    pub v: Overflow,
}

/// The machine between two steps, its banks apart, laid out as the library has it.
#[repr(C)]
#[derive(Clone, Copy, Debug, PartialEq, Eq)]
pub struct State {
    /// The registers R0 to R3.
    pub regs: [u8; 4],
    /// The program counter.
    pub pc: u8,
    /// The stack pointer.
    pub sp: u8,
    /// The output register.
    pub out: u8,
    /// The flags.
    pub flags: Flags,
    /// `hlt` was executed.
    pub halted: bool,
    /// The place among the keys of the one in the input register.
    pub position: usize,
}

impl State {
    /// The state in which a program starts.
    pub fn start() -> State {
        State {
            regs: [0; 4],
            pc: 0,
            sp: 255,
            out: 0,
            flags: Flags { z: false, c: false, s: false, v: Overflow::Unsettled },
            halted: false,
            position: 0,
        }
    }
}

/// Why a run made no further step, in the order in which the reasons are looked at.
#[derive(Clone, Copy, Debug, PartialEq, Eq)]
pub enum Stop {
    /// The machine is halted.
    Halted,
    /// The budget is spent.
    Spent,
    /// The instruction tests V, which is unsettled.
    Unsettled,
    /// The instruction writes to the roll, which is full.
    Full,
}

impl Display for Stop {
    fn fmt(&self, out: &mut Formatter<'_>) -> fmt::Result {
        out.pad(match self {
            Stop::Halted => "halted",
            Stop::Spent => "spent",
            Stop::Unsettled => "unsettled",
            Stop::Full => "full",
        })
    }
}

/// What a run reports.
#[derive(Clone, Copy, Debug, PartialEq, Eq)]
pub struct Report {
    /// Why it made no further step.
    pub stop: Stop,
    /// The steps made.
    pub steps: u32,
    /// The cycles of these steps.
    pub cycles: u32,
    /// The words written to the roll.
    pub words: usize,
    /// The state reached.
    pub state: State,
}

#[cfg(test)]
mod tests {
    use super::*;

    #[test]
    fn stops_are_shown_by_their_names() {
        let stops = [Stop::Halted, Stop::Spent, Stop::Unsettled, Stop::Full];
        assert_eq!(stops.map(|stop| stop.to_string()), ["halted", "spent", "unsettled", "full"]);
        assert_eq!(format!("{:>7}|{:<5}", Stop::Spent, Stop::Full), "  spent|full ");
    }
}
