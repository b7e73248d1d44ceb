//! Words taken apart.

use super::registers::NONE;
use cesca_types::BANK;
use std::array;
use Operation::*;

/// A word with all that its step asks, eight bytes apart from the next.
#[derive(Clone, Copy)]
#[repr(align(8))]
pub struct Word {
    pub operation: Operation,
    pub cycles: u8,
    /// The place of the result: Rd, or nowhere.
    pub d: u8,
    pub a: u8,
    pub b: u8,
    pub argument: u8,
}

/// What a word does: a function of the ALU, by its number, or another row of the table.
#[rustfmt::skip]
#[derive(Clone, Copy)]
pub enum Operation {
    Mov, Add, Sub, Addc, Subb, And, Or, Not, Xor, Nand, Nor, Xnor, Sll, Srl, Sra, Rol,
    AddImm, CmpImm, MaskImm, MaskIn,
    MovImm, MovIn, Ack, Store, StoreAt, Push, Load, LoadAt, Pop, Swap,
    Jmp, JmpReg, Call, Ret, Jz, Jnz, Jc, Jnc, Jv, Jnv, Jlz, Jp, Jgz, Jleu, Jlt, Jle,
    LcdCommand, LcdImm, LcdReg, LcdLoad, OutReg, OutLoad, Hlt, Nop,
}

/// The functions of the ALU in the order of their numbers.
const FUNCTIONS: [Operation; 16] =
    [Mov, Add, Sub, Addc, Subb, And, Or, Not, Xor, Nand, Nor, Xnor, Sll, Srl, Sra, Rol];

/// Operation and cycles by the first six bits of the opcode, a row for each first four; `Mov` is
/// any function of the ALU.
const OPERATIONS: [[(Operation, u8); 4]; 16] = [
    [(Mov, 4); 4],
    [(AddImm, 4); 4],
    [(Mov, 3), (CmpImm, 3), (MaskImm, 3), (MaskIn, 5)],
    [(MovImm, 3); 4],
    [(MovIn, 4); 4],
    [(Ack, 3), (Store, 4), (StoreAt, 5), (Push, 5)],
    [(Load, 4); 4],
    [(LoadAt, 4); 4],
    [(Pop, 4); 4],
    [(Swap, 5); 4],
    [(Jmp, 3), (JmpReg, 3), (Call, 6), (Ret, 4)],
    [(Jz, 3), (Jnz, 3), (Jc, 3), (Jnc, 3)],
    [(Jv, 3), (Jnv, 3), (Jlz, 3), (Jp, 3)],
    [(Jgz, 3), (Jleu, 3), (Jlt, 3), (Jle, 3)],
    [(LcdCommand, 3), (LcdImm, 3), (LcdReg, 3), (LcdLoad, 4)],
    [(OutReg, 3), (OutLoad, 4), (Hlt, 2), (Nop, 8)],
];

/// The row whose results go nowhere.
const TESTS: usize = 2;

/// The word of each opcode with an argument of 0.
const OPCODES: [Word; BANK] = {
    let mut words = [Word::of_opcode(0); BANK];
    let mut opcode = 0;
    while opcode < BANK {
        words[opcode] = Word::of_opcode(opcode);
        opcode += 1;
    }
    words
};

impl Word {
    /// All words of the two banks.
    pub fn all(opcodes: &[u8; BANK], arguments: &[u8; BANK]) -> [Word; BANK] {
        array::from_fn(|at| Word::decode(opcodes[at], arguments[at]))
    }

    /// The word of an opcode and its argument.
    #[inline]
    fn decode(opcode: u8, argument: u8) -> Word {
        let word = OPCODES[usize::from(opcode)];
        let function = FUNCTIONS[usize::from(argument >> 4)];
        let operation = if matches!(word.operation, Mov) { function } else { word.operation };
        Word { operation, b: argument & 3, argument, ..word }
    }

    /// The word of an opcode with an argument of 0.
    const fn of_opcode(opcode: usize) -> Word {
        let (row, column) = (opcode >> 4, opcode >> 2 & 3);
        let (operation, cycles) = OPERATIONS[row][column];
        let d = if row == TESTS { NONE } else { column as u8 };
        Word { operation, cycles, d, a: opcode as u8 & 3, b: 0, argument: 0 }
    }
}
