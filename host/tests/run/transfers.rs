//! Keys, LCD, data and output by hand.

use crate::by_hand::{check, flags, report};
use crate::memory::{Guarded, Memory};
use cesca::{Overflow, Report, State, Stop};

#[test]
fn an_ack_shows_the_next_key_and_stays_at_the_end() {
    let mut memory = Memory::with_words(&[
        [0x40, 0x00], // mov R0, IN
        [0x50, 0x00], // mov IN, Ack
        [0x44, 0x00], // mov R1, IN
        [0x50, 0x00],
        [0x48, 0x00], // mov R2, IN
        [0x50, 0x00],
        [0x4C, 0x00], // mov R3, IN
    ]);
    memory.keys = Guarded::new([10, 20]);
    let start = State { regs: [9; 4], ..State::start() };
    let reached = State { regs: [10, 20, 0, 0], pc: 7, position: 2, ..start };
    check(&memory, 7, start, report(Stop::Spent, 7, 25, reached), &memory);
    let start = State { position: 2, ..start };
    let reached = State { regs: [0; 4], ..reached };
    check(&memory, 7, start, report(Stop::Spent, 7, 25, reached), &memory);
}

#[test]
fn the_input_register_is_masked() {
    let mut memory = Memory::with_words(&[[0x2C, 0xF0]; 2]); // mask IN, 0xF0
    memory.keys = Guarded::new([0x0F, 0x9F]);
    let run = |position, wanted| {
        let start = State { position, ..State::start() };
        let reached = State { pc: 1, flags: flags(wanted, Overflow::Unsettled), ..start };
        check(&memory, 1, start, report(Stop::Spent, 1, 5, reached), &memory);
    };
    run(0, "Z");
    run(1, "S");
    run(2, "Z");
}

#[test]
fn a_command_is_256_more() {
    let memory = |word| {
        let mut memory = Memory::with_words(&[word]);
        memory.roll = Guarded::new([7]);
        memory
    };
    let run = |word, transferred| {
        let mut after = memory(word);
        after.roll = Guarded::new([transferred]);
        let reached = State { pc: 1, ..State::start() };
        let wanted = Report { words: 1, ..report(Stop::Spent, 1, 3, reached) };
        check(&memory(word), 1, State::start(), wanted, &after);
    };
    run([0xE0, 0x00], 256); // mov LCDcmd, 0
    run([0xE0, 0xFF], 511); // mov LCDcmd, 255
    run([0xE4, 0x00], 0); // mov LCD, 0
    run([0xE4, 0xFF], 255); // mov LCD, 255
}

#[test]
fn each_run_writes_the_roll_from_its_beginning() {
    let mut memory = Memory::with_words(&[[0xE4, 0x01], [0xE4, 0x02]]);
    memory.roll = Guarded::new([7, 7]);
    let mut start = State::start();
    for roll in [[1, 7], [2, 7]] {
        let mut after = memory.clone();
        after.roll = Guarded::new(roll);
        let reached = State { pc: start.pc + 1, ..start };
        let wanted = Report { words: 1, ..report(Stop::Spent, 1, 3, reached) };
        check(&memory, 1, start, wanted, &after);
        (memory, start) = (after, reached);
    }
}

#[test]
fn keys_and_rolls_of_any_length() {
    // mov R0, IN; mov IN, Ack; mov LCD, R0; jmp 0
    let words = [[0x40, 0x00], [0x50, 0x00], [0xE8, 0x00], [0xA0, 0x00]];
    let mut memory = Memory::with_words(&words);
    // No byte is the one 256 or 65,536 places before.
    let keys: Vec<u8> = (0..100_000u32).map(|at| (at % 251) as u8).collect();
    memory.keys = Guarded::new(keys.iter().copied());
    memory.roll = Guarded::new(vec![999; 90_000]);
    let mut after = memory.clone();
    let roll = after.roll.inner_mut();
    for (word, key) in roll.iter_mut().zip(&keys[20_000..]) {
        *word = u16::from(*key);
    }
    roll[80_000..].fill(0);
    let start = State { position: 20_000, ..State::start() };
    // 80,000 keys and 10,000 times nothing: a full roll stops the run at its next transfer.
    let reached = State { pc: 2, position: 100_000, ..start };
    let full = report(Stop::Full, 360_002, 90_000 * 13 + 7, reached);
    check(&memory, 1_000_000, start, Report { words: 90_000, ..full }, &after);
}

#[test]
fn data_goes_to_its_address_and_comes_from_it() {
    let mut memory = Memory::with_words(&[
        [0x57, 0x40], // mov [0x40], R3: 4 cycles
        [0x59, 0x03], // mov [R3], R1: 5
        [0x60, 0x7F], // mov R0, [0x7F]: 4
        [0x78, 0x00], // mov R2, [R0]: 4
        [0xF4, 0x30], // mov OUT, [0x30]: 4
        [0xF1, 0x00], // mov OUT, R1: 3
    ]);
    let ram = memory.ram.inner_mut();
    (ram[0x7F], ram[0x20], ram[0x30]) = (0x20, 0x44, 0x55);
    let mut after = memory.clone();
    let ram = after.ram.inner_mut();
    (ram[0x40], ram[0x33]) = (0x33, 0x11);
    let start = State { regs: [0, 0x11, 0, 0x33], ..State::start() };
    let reached = State { regs: [0x20, 0x11, 0x44, 0x33], pc: 5, out: 0x55, ..start };
    check(&memory, 5, start, report(Stop::Spent, 5, 21, reached), &after);
    let reached = State { pc: 6, out: 0x11, ..reached };
    check(&memory, 6, start, report(Stop::Spent, 6, 24, reached), &after);
}

#[test]
fn the_word_after_255_is_at_0() {
    let mut memory = Memory::with_words(&[[0x34, 0xAB]]); // mov R1, 0xAB
    memory.put(255, [0xFC, 0x00]); // nop
    let start = State { pc: 255, ..State::start() };
    let reached = State { regs: [0, 0xAB, 0, 0], pc: 1, ..start };
    check(&memory, 2, start, report(Stop::Spent, 2, 11, reached), &memory);
}
