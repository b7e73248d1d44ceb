//! The library's exports as C sees them, and their answers read into this crate's words.

pub mod admit;
pub mod busy;
pub mod draw;
pub mod run;
pub mod shelf;
pub mod source;
pub mod turn;

use cesca_types::{AluAnswer, Class, Effect, Facts, Fields, Overflow, Refusal};
use std::fmt::Display;

/// An encoder's answer: 0 and the word, or a ground's number and zero bytes.
#[repr(C)]
pub struct RawEncoding {
    pub number: u8,
    pub opcode: u8,
    pub argument: u8,
}

/// The ALU's answer, V as a number.
#[repr(C)]
pub struct RawAluAnswer {
    value: u8,
    z: bool,
    c: bool,
    s: bool,
    v: u8,
}

/// An instruction's facts, class and effect on V as numbers.
#[repr(C)]
pub struct RawFacts {
    cycles: u8,
    class: u8,
    operand: u8,
    overflow: u8,
    tests: bool,
    roll: bool,
}

extern "C" {
    pub fn cesca_decode(opcode: u8, argument: u8) -> Fields;
    pub fn cesca_encode(fields: Fields) -> RawEncoding;
    pub fn cesca_put(
        fields: Fields,
        opcodes: *mut u8,
        opcodes_len: usize,
        arguments: *mut u8,
        arguments_len: usize,
        at: u8,
    ) -> u8;
    pub fn cesca_alu(function: u8, x: u8, y: u8, c: bool) -> RawAluAnswer;
    pub fn cesca_facts(fields: Fields) -> RawFacts;
}

/// Success for 0, else the refusal of that number.
pub fn outcome(number: u8) -> Result<(), Refusal> {
    match number {
        0 => Ok(()),
        1 | 22 | 23 => Err(Refusal::of_call(number)),
        _ => unknown("refusal", number),
    }
}

impl From<RawAluAnswer> for AluAnswer {
    fn from(raw: RawAluAnswer) -> AluAnswer {
        AluAnswer { value: raw.value, z: raw.z, c: raw.c, s: raw.s, v: overflow(raw.v) }
    }
}

impl From<RawFacts> for Facts {
    fn from(raw: RawFacts) -> Facts {
        Facts {
            cycles: raw.cycles,
            class: class(raw.class),
            operand: raw.operand,
            overflow: effect(raw.overflow),
            tests: raw.tests,
            roll: raw.roll,
        }
    }
}

/// The value of V with this number.
#[inline]
fn overflow(number: u8) -> Overflow {
    match number {
        0 => Overflow::Clear,
        1 => Overflow::Set,
        2 => Overflow::Unsettled,
        _ => unknown("value of V", number),
    }
}

/// The effect on V with this number.
fn effect(number: u8) -> Effect {
    match number {
        0 => Effect::Leaves,
        1 => Effect::Settles,
        2 => Effect::Unsettles,
        _ => unknown("effect on V", number),
    }
}

/// The class with this number.
fn class(number: u8) -> Class {
    match number {
        0 => Class::Next,
        1 => Class::Jump,
        2 => Class::Branch,
        3 => Class::JumpRegister,
        4 => Class::Call,
        5 => Class::Return,
        6 => Class::Push,
        7 => Class::Pop,
        8 => Class::Swap,
        9 => Class::Halt,
        _ => unknown("class", number),
    }
}

/// The end of a call whose answer breaks the library's contract.
fn unknown(kind: &str, number: impl Display) -> ! {
    panic!("the library answered {number}, which is no {kind}")
}

#[cfg(test)]
mod tests {
    use super::*;
    use std::panic::catch_unwind;

    #[test]
    fn refusals_of_other_numbers_break_the_contract() {
        assert_eq!(outcome(0), Ok(()));
        for number in 1..=255 {
            let found = catch_unwind(|| outcome(number));
            let wanted = [1, 22, 23].contains(&number).then(|| Err(Refusal::of_call(number)));
            assert_eq!(found.ok(), wanted, "{number}");
        }
    }
}
