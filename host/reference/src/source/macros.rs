//! 003's macros, each replaced by the instructions on the right of its arrow.

use super::operand::Operand::{self, Letters, Number, Register};
use super::statement::{addressed, word, Argument, Statement, Word};
use super::statement::{JC, JLE, JLEU, JLT, JMP, JNC, JNZ, JZ};

/// What a macro with its operands stands for.
pub fn read<'a>(mnemonic: &str, operands: &[Operand<'a>]) -> Option<Statement<'a>> {
    Some(match (mnemonic, operands) {
        ("cmp", [Register(a), Register(b)]) => Statement::One(compared(*a, *b)),
        // Not among the macros, but 003's remarks give mask a register version.
        ("mask", [Register(a), Register(b)]) => Statement::One(word(0x20 | a, 0x50 | b)),
        ("test", [Register(a)]) => Statement::One(word(0x20, *a)),
        ("inc", [Register(a)]) => Statement::One(word(0x10 | a << 2 | a, 1)),
        ("dec", [Register(a)]) => Statement::One(word(0x10 | a << 2 | a, 255)),
        ("sllc", [Register(d), Register(a)]) => Statement::One(word(d << 2 | a, 0x30 | a)),
        ("swap", [Register(a)]) => Statement::One(word(0x90 | a << 2 | a, 0)),
        ("mov", [Letters("LCDcmd"), Letters("Init")]) => {
            Statement::Three([word(0xE0, 0x38), word(0xE0, 0x0E), word(0xE0, 0x06)])
        }
        ("mov", [Letters("LCDcmd"), Letters("Clr")]) => Statement::One(word(0xE0, 0x01)),
        ("jeq", [target]) => Statement::One(addressed(JZ, target.address()?)),
        ("jne", [target]) => Statement::One(addressed(JNZ, target.address()?)),
        ("jltu", [target]) => Statement::One(addressed(JC, target.address()?)),
        (_, [Register(a), Register(b), target]) => {
            Statement::Two(registers(mnemonic, *a, *b, target.address()?)?)
        }
        (_, [Register(a), Number(n), target]) => {
            immediate(mnemonic, word(0x24 | a, *n), target.address()?)?
        }
        _ => return None,
    })
}

/// The words that compare two registers and jump.
fn registers<'a>(mnemonic: &str, a: u8, b: u8, target: Argument<'a>) -> Option<[Word<'a>; 2]> {
    match mnemonic {
        "jgtu" => Some([compared(b, a), addressed(JC, target)]),
        "jgeu" => Some([compared(a, b), addressed(JNC, target)]),
        "jgt" => Some([compared(b, a), addressed(JLT, target)]),
        "jge" => Some([compared(b, a), addressed(JLE, target)]),
        _ => None,
    }
}

/// The words that jump after this comparison of a register with a number.
fn immediate<'a>(
    mnemonic: &str,
    compared: Word<'a>,
    target: Argument<'a>,
) -> Option<Statement<'a>> {
    let past = Argument::Skip;
    match mnemonic {
        "jgtu" => Some(Statement::Three([compared, addressed(JLEU, past), addressed(JMP, target)])),
        "jgeu" => Some(Statement::Two([compared, addressed(JNC, target)])),
        "jgt" => Some(Statement::Three([compared, addressed(JLE, past), addressed(JMP, target)])),
        "jge" => Some(Statement::Three([compared, addressed(JLT, past), addressed(JMP, target)])),
        _ => None,
    }
}

/// `sub NONE, Ra, Rb`.
fn compared<'a>(a: u8, b: u8) -> Word<'a> {
    word(0x20 | a, 0x20 | b)
}
