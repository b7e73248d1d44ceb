//! Random boards: programs of all kinds, and boards that can't go on.

use crate::board::Board;
use crate::case::Case;
use crate::listings::LISTINGS;
use crate::memory::Guarded;
use crate::programs::{Kind, Program};
use crate::random::Random;
use cesca::{Flags, Overflow, State, BANK};

/// Opcodes that go on to the next word whatever the state, but for a full roll.
const ONWARD: [u8; 14] = [
    0x00, 0x10, 0x20, 0x24, 0x2C, 0x30, 0x54, 0x5C, 0x90, 0xFC, // the roll is left alone
    0x40, 0x50, // mov R0, IN; mov IN, Ack
    0xE4, 0xE8, // mov LCD, Imm8; mov LCD, R0
];

/// The jumps that test V.
const TESTS: [u8; 4] = [0xC0, 0xC4, 0xD8, 0xDC];

/// The instructions that write to the roll.
const WRITES: [u8; 4] = [0xE0, 0xE4, 0xE8, 0xEC];

impl Board {
    /// A board of any kind; one in four at least can't go on.
    pub fn random(random: &mut Random) -> Board {
        match random.below(16) {
            0..4 => any(random),
            4..6 => Board::endless(random),
            6..8 => board_of(&Kind::Sound.program(random), random),
            8..10 => board_of(&Kind::Damaged.program(random), random),
            10 => board_of(&Kind::Few.program(random), random),
            11 => board_of(&stored(random), random),
            12 => halted(any(random)),
            13 => unsettled(any(random), random),
            _ => full(any(random), random),
        }
    }

    /// A board with a program that goes round for ever, or until its roll is full.
    pub fn endless(random: &mut Random) -> Board {
        let mut board = any(random);
        let first = random.byte();
        let length = random.pick(&[0, 1, 2, 5, 20]);
        for at in 0..length {
            let word = [random.pick(&ONWARD), random.byte()];
            board.memory.put(first.wrapping_add(at), word);
        }
        board.memory.put(first.wrapping_add(length), [0xA0, first]);
        board.state = State { pc: first, halted: false, ..board.state };
        with_other_keys_and_roll(board, random)
    }

    /// A board at the start of a program, with any registers, flags but V, data and stack, and with
    /// neither keys nor roll.
    pub fn bare(program: &Program, random: &mut Random) -> Board {
        let mut board = Board::new(&[], 0);
        board.memory.opcodes = Guarded::new(program.opcodes);
        board.memory.arguments = Guarded::new(program.arguments);
        board.memory.ram = Guarded::new(random.bytes(BANK));
        board.memory.stack = Guarded::new(random.bytes(BANK));
        let [z, c, s] = [(); 3].map(|()| random.once_in(2));
        board.state.regs = [(); 4].map(|()| random.byte());
        board.state.flags = Flags { z, c, s, v: Overflow::Unsettled };
        board
    }
}

/// A board as runs are tested with; some of its roll may be written.
fn any(random: &mut Random) -> Board {
    let Case { memory, start, .. } = Case::good(random);
    let words = random.below(memory.roll.inner().len() as u32 + 1) as usize;
    Board { memory, state: start, words }
}

/// The program of a stored listing.
fn stored(random: &mut Random) -> Program {
    Program::of(&LISTINGS[random.below(LISTINGS.len() as u32) as usize])
}

/// A board at the start of a program, with keys and roll.
fn board_of(program: &Program, random: &mut Random) -> Board {
    with_other_keys_and_roll(Board::bare(program, random), random)
}

/// The board with other keys and another roll, of any length and position.
fn with_other_keys_and_roll(mut board: Board, random: &mut Random) -> Board {
    let keys = random.pick(&[0, 0, 1, 5, 40]);
    let roll = random.pick(&[0, 1, 2, 5, 40, 300]);
    board.memory.keys = Guarded::new(random.bytes(keys));
    board.memory.roll = Guarded::new((0..roll).map(|_| random.number() as u16));
    board.state.position = random.below(keys as u32 + 1) as usize;
    board.words = random.pick(&[0, 0, roll / 2, roll]);
    board
}

/// The board, halted.
fn halted(mut board: Board) -> Board {
    board.state.halted = true;
    board
}

/// The board with a jump that tests V at its PC, and V unsettled.
fn unsettled(mut board: Board, random: &mut Random) -> Board {
    let word = [random.pick(&TESTS) | random.byte() & 3, random.byte()];
    board.memory.put(board.state.pc, word);
    board.state.flags.v = Overflow::Unsettled;
    board
}

/// The board with a roll that is full, or was never there, and a write to it at its PC.
fn full(mut board: Board, random: &mut Random) -> Board {
    let word = [random.pick(&WRITES) | random.byte() & 3, random.byte()];
    board.memory.put(board.state.pc, word);
    board.words = board.memory.roll.inner().len();
    board
}
