//! Instructions and what they stand for: 003's instruction table and its functions.

use super::macros;
use super::operand::Operand::{self, AtAddress, AtRegister, Letters, Number, Register};
use std::slice;

pub const JMP: u8 = 0xA0;
pub const CALL: u8 = 0xA8;
pub const JZ: u8 = 0xB0;
pub const JNZ: u8 = 0xB4;
pub const JC: u8 = 0xB8;
pub const JNC: u8 = 0xBC;
pub const JV: u8 = 0xC0;
pub const JNV: u8 = 0xC4;
pub const JLZ: u8 = 0xC8;
pub const JP: u8 = 0xCC;
pub const JGZ: u8 = 0xD0;
pub const JLEU: u8 = 0xD4;
pub const JLT: u8 = 0xD8;
pub const JLE: u8 = 0xDC;

/// An argument byte, or what it will be once the labels are known.
#[derive(Clone, Copy, Debug, PartialEq, Eq)]
pub enum Argument<'a> {
    /// The byte itself.
    Byte(u8),
    /// The address of a label.
    Label(&'a str),
    /// `skip(1)`: the address after the next instruction.
    Skip,
}

/// A word whose argument may still hang on a label.
#[derive(Clone, Copy, Debug, PartialEq, Eq)]
pub struct Word<'a> {
    pub opcode: u8,
    pub argument: Argument<'a>,
}

/// The words that an instruction or a macro stands for.
#[derive(Clone, Copy, Debug, PartialEq, Eq)]
pub enum Statement<'a> {
    One(Word<'a>),
    Two([Word<'a>; 2]),
    Three([Word<'a>; 3]),
}

impl<'a> Statement<'a> {
    /// What a mnemonic with its operands stands for.
    pub fn read(mnemonic: &str, operands: &[Operand<'a>]) -> Option<Statement<'a>> {
        let instruction = instruction(mnemonic, operands).map(Statement::One);
        instruction.or_else(|| macros::read(mnemonic, operands))
    }

    /// The words in order.
    pub fn words(&self) -> &[Word<'a>] {
        match self {
            Statement::One(word) => slice::from_ref(word),
            Statement::Two(words) => words,
            Statement::Three(words) => words,
        }
    }
}

/// The word of these two bytes.
pub fn word<'a>(opcode: u8, argument: u8) -> Word<'a> {
    Word { opcode, argument: Argument::Byte(argument) }
}

/// The word with an address for its argument.
pub fn addressed(opcode: u8, address: Argument<'_>) -> Word<'_> {
    Word { opcode, argument: address }
}

/// The word of an instruction.
fn instruction<'a>(mnemonic: &str, operands: &[Operand<'a>]) -> Option<Word<'a>> {
    Some(match (mnemonic, operands) {
        ("add", [Register(d), Register(a), Number(n)]) => word(0x10 | d << 2 | a, *n),
        ("cmp", [Register(a), Number(n)]) => word(0x24 | a, *n),
        ("mask", [Register(a), Number(n)]) => word(0x28 | a, *n),
        ("mask", [Letters("IN"), Number(n)]) => word(0x2C, *n),
        ("push", [Register(a)]) => word(0x5C | a, 0),
        ("pop", [Register(d)]) => word(0x80 | d << 2, 0),
        ("swap", [Register(d), Register(a)]) => word(0x90 | d << 2 | a, 0),
        ("jmp", [Register(a)]) => word(0xA4 | a, 0),
        ("ret", []) => word(0xAC, 0),
        ("hlt", []) => word(0xF8, 0),
        ("nop", []) => word(0xFC, 0),
        ("mov", [to, from]) => moved(*to, *from).or_else(|| function(mnemonic, operands))?,
        (_, [target]) => addressed(jump(mnemonic)?, target.address()?),
        _ => function(mnemonic, operands)?,
    })
}

/// The word of a move that isn't the ALU's.
fn moved<'a>(to: Operand<'a>, from: Operand<'a>) -> Option<Word<'a>> {
    Some(match (to, from) {
        (Register(d), Number(n)) => word(0x30 | d << 2, n),
        (Register(d), Letters("IN")) => word(0x40 | d << 2, 0),
        (Letters("IN"), Letters("Ack")) => word(0x50, 0),
        (AtAddress(address), Register(a)) => addressed(0x54 | a, address),
        (AtRegister(b), Register(a)) => word(0x58 | a, b),
        (Register(d), AtAddress(address)) => addressed(0x60 | d << 2, address),
        (Register(d), AtRegister(a)) => word(0x70 | d << 2 | a, 0),
        (Letters("LCDcmd"), Number(n)) => word(0xE0, n),
        (Letters("LCD"), Number(n)) => word(0xE4, n),
        (Letters("LCD"), Register(a)) => word(0xE8 | a, 0),
        (Letters("LCD"), AtAddress(address)) => addressed(0xEC, address),
        (Letters("OUT"), Register(a)) => word(0xF0 | a, 0),
        (Letters("OUT"), AtAddress(address)) => addressed(0xF4, address),
        _ => return None,
    })
}

/// The opcode of a jump or a call to an address.
fn jump(mnemonic: &str) -> Option<u8> {
    Some(match mnemonic {
        "jmp" => JMP,
        "call" => CALL,
        "jz" => JZ,
        "jnz" => JNZ,
        "jc" => JC,
        "jnc" => JNC,
        "jv" => JV,
        "jnv" => JNV,
        "jlz" => JLZ,
        "jp" => JP,
        "jgz" => JGZ,
        "jleu" => JLEU,
        "jlt" => JLT,
        "jle" => JLE,
        _ => return None,
    })
}

/// The word of an ALU function on registers; where the mnemonic shows no Ra or Rb it is R0.
fn function<'a>(mnemonic: &str, operands: &[Operand<'a>]) -> Option<Word<'a>> {
    let (number, shown) = shown(mnemonic)?;
    let (destination, sources) = operands.split_first()?;
    let opcode = match destination {
        Register(d) => d << 2,
        Letters("NONE") => 0x20,
        _ => return None,
    };
    let (a, b) = match (shown, sources) {
        (Shown::Second, [Register(b)]) => (0, *b),
        (Shown::First, [Register(a)]) => (*a, 0),
        (Shown::Both, [Register(a), Register(b)]) => (*a, *b),
        _ => return None,
    };
    Some(word(opcode | a, number << 4 | b))
}

/// The sources that the mnemonic of a function shows.
enum Shown {
    First,
    Second,
    Both,
}

/// The number of a function and the sources that it shows.
fn shown(mnemonic: &str) -> Option<(u8, Shown)> {
    Some(match mnemonic {
        "mov" => (0, Shown::Second),
        "add" => (1, Shown::Both),
        "sub" => (2, Shown::Both),
        "addc" => (3, Shown::Both),
        "subb" => (4, Shown::Both),
        "and" => (5, Shown::Both),
        "or" => (6, Shown::Both),
        "not" => (7, Shown::First),
        "xor" => (8, Shown::Both),
        "nand" => (9, Shown::Both),
        "nor" => (10, Shown::Both),
        "xnor" => (11, Shown::Both),
        "sll" => (12, Shown::First),
        "srl" => (13, Shown::First),
        "sra" => (14, Shown::First),
        "rol" => (15, Shown::First),
        _ => return None,
    })
}
