//! Programs to draw for.

use crate::random::Random;
use crate::routines;
use cesca::BANK;
use reference::Listing;

/// Instructions that decide what is drawn, and some that only go on.
#[rustfmt::skip]
const FEW: [u8; 20] = [
    0x5C, 0x5E, 0x80, 0x8C, 0x90, // push, pop, swap
    0xA8, 0xA8, 0xAC, 0xA4, // call, ret, jmp Ra
    0xA0, 0xB0, 0xC0, 0xDC, // jmp, jz, jv, jle
    0x00, 0x10, 0x24, 0x28, // an ALU function, add, cmp, mask
    0xF8, 0xF8, 0xFC, // hlt, nop
];

/// The two banks that a member sends.
#[derive(Clone, Debug)]
pub struct Program {
    pub opcodes: [u8; BANK],
    pub arguments: [u8; BANK],
}

/// How a random program is made.
#[derive(Clone, Copy, Debug, PartialEq, Eq)]
pub enum Kind {
    /// Of routines that are sound but for what chance makes of them.
    Sound,
    /// The same with one byte changed.
    Damaged,
    /// Of few instructions, which mostly jump and call not far.
    Few,
    /// Of any bytes.
    Any,
}

impl Kind {
    /// A random program of the kind.
    pub fn program(self, random: &mut Random) -> Program {
        match self {
            Kind::Sound => Program::new(&routines::words(random), random),
            Kind::Damaged => {
                let mut words = routines::words(random);
                damage(&mut words, random);
                Program::new(&words, random)
            }
            Kind::Few => Program::new(&few(random), random),
            Kind::Any => Program::new(&[], random),
        }
    }
}

impl Program {
    /// The banks of a listing.
    pub fn of(listing: &Listing) -> Program {
        let bank = |bytes: &[u8]| bytes.try_into().expect("256 bytes");
        Program { opcodes: bank(&listing.opcodes), arguments: bank(&listing.arguments) }
    }

    /// These words from address 0, as many as there is room for, and any bytes behind them.
    fn new(words: &[[u8; 2]], random: &mut Random) -> Program {
        let bank = |random: &mut Random| random.bytes(BANK).try_into().expect("256 bytes");
        let mut program = Program { opcodes: bank(random), arguments: bank(random) };
        for (at, [opcode, argument]) in words.iter().take(BANK).enumerate() {
            (program.opcodes[at], program.arguments[at]) = (*opcode, *argument);
        }
        program
    }
}

/// Changes one byte of some words.
fn damage(words: &mut [[u8; 2]], random: &mut Random) {
    let at = random.below(words.len() as u32) as usize;
    let [opcode, argument] = &mut words[at];
    match random.below(4) {
        0 => *opcode = random.byte(),
        1 => *opcode = random.pick(&FEW),
        2 => *argument = random.byte(),
        _ => *argument = argument.wrapping_add(random.pick(&[1, 2, 254, 255])),
    }
}

/// Words of few instructions, with targets among them.
fn few(random: &mut Random) -> Vec<[u8; 2]> {
    let length = random.pick(&[4, 6, 10, 20, 256]);
    let word = |random: &mut Random| [random.pick(&FEW), random.below(length) as u8];
    let mut words: Vec<[u8; 2]> = (0..length).map(|_| word(random)).collect();
    // ALU functions stand in the upper half of the argument.
    for [opcode, argument] in &mut words {
        *argument |= if *opcode == 0x00 { random.byte() & 0xF0 } else { 0 };
    }
    words.push([random.pick(&[0xF8, 0xAC, 0xA0]), 0x00]);
    words
}
