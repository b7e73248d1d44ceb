//! The stack by hand: order, edges, and what swap exchanges.

use crate::by_hand::{check, report};
use crate::memory::{Guarded, Memory};
use cesca::{State, Stop};

/// Banks with this word at 0 and at 255, and a stack of sevens.
fn sevens(word: [u8; 2]) -> Memory {
    let mut memory = Memory::with_words(&[word]);
    memory.put(255, word);
    memory.stack = Guarded::new([7; 256]);
    memory
}

/// The memory with one stack byte changed.
fn with(memory: &Memory, at: usize, byte: u8) -> Memory {
    let mut memory = memory.clone();
    memory.stack.inner_mut()[at] = byte;
    memory
}

/// Checks one step that changes a stack byte.
fn check_step(memory: &Memory, start: State, cycles: u32, reached: State, stored: (usize, u8)) {
    let after = with(memory, stored.0, stored.1);
    check(memory, 1, start, report(Stop::Spent, 1, cycles, reached), &after);
}

#[test]
fn a_push_moves_sp_and_then_stores() {
    let memory = sevens([0x5D, 0x00]); // push R1
    let start = State { regs: [0, 0xAB, 0, 0], ..State::start() };
    let reached = State { pc: 1, sp: 254, ..start };
    check_step(&memory, start, 5, reached, (254, 0xAB));
    // M8
    let start = State { sp: 0, ..start };
    let reached = State { sp: 255, ..reached };
    check_step(&memory, start, 5, reached, (255, 0xAB));
}

#[test]
fn a_pop_reads_and_then_moves_sp() {
    let memory = with(&sevens([0x88, 0x00]), 255, 0x99); // pop R2
    let reached = State { regs: [0, 0, 0x99, 0], pc: 1, sp: 0, ..State::start() };
    check(&memory, 1, State::start(), report(Stop::Spent, 1, 4, reached), &memory);
    let start = State { sp: 254, ..State::start() };
    let reached = State { regs: [0, 0, 7, 0], sp: 255, ..reached };
    check(&memory, 1, start, report(Stop::Spent, 1, 4, reached), &memory);
}

#[test]
fn a_call_stores_the_address_after_itself() {
    let memory = sevens([0xA8, 0x20]); // call 0x20
    let reached = State { pc: 0x20, sp: 254, ..State::start() };
    check_step(&memory, State::start(), 6, reached, (254, 1));
    let start = State { pc: 255, sp: 0, ..State::start() };
    let reached = State { pc: 0x20, sp: 255, ..start };
    check_step(&memory, start, 6, reached, (255, 0));
}

#[test]
fn a_ret_takes_its_address_from_the_stack() {
    let memory = with(&sevens([0xAC, 0x00]), 255, 0x40);
    let reached = State { pc: 0x40, sp: 0, ..State::start() };
    check(&memory, 1, State::start(), report(Stop::Spent, 1, 4, reached), &memory);
    let start = State { pc: 255, sp: 3, ..State::start() };
    let reached = State { pc: 7, sp: 4, ..start };
    check(&memory, 1, start, report(Stop::Spent, 1, 4, reached), &memory);
}

#[test]
fn a_swap_is_with_the_stack_and_not_of_two_registers() {
    let start = State { regs: [0x10, 0x11, 0x12, 0x13], sp: 10, ..State::start() };
    let memory = with(&sevens([0x97, 0x00]), 10, 0x55); // swap R1, R3
    let reached = State { regs: [0x10, 0x55, 0x12, 0x13], pc: 1, ..start };
    check_step(&memory, start, 5, reached, (10, 0x13));
    let memory = with(&sevens([0x9A, 0x00]), 10, 0x55); // swap R2, R2
    let reached = State { regs: [0x10, 0x11, 0x55, 0x13], pc: 1, ..start };
    check_step(&memory, start, 5, reached, (10, 0x12));
}
