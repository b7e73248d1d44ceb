//! Listings as text (02, request 1): instructions printed, and texts assembled into the banks.

mod line;
mod macros;
mod operand;
mod program;
mod statement;
#[cfg(test)]
mod tests;

use super::Instruction;
use cesca_types::{Fields, BANK};
use program::Program;

/// The text of an instruction, or the number of what is wrong with its fields.
pub fn print(fields: Fields) -> Result<String, u8> {
    let instruction = Instruction::from(fields);
    instruction.check().map_err(|refusal| refusal.number())?;
    Ok(instruction.to_string())
}

/// The words of a text, which then fill both banks, or number and line of what is wrong.
///
/// The line is 0 for 1 and 26, which have none. A refusal leaves both banks as they were.
pub fn assemble(
    text: &[u8],
    opcodes: &mut [u8],
    arguments: &mut [u8],
) -> Result<usize, (u8, usize)> {
    if opcodes.len() != BANK || arguments.len() != BANK {
        return Err((1, 0));
    }
    let program = Program::read(text).map_err(|line| (24, line))?;
    let words = program.words().map_err(|line| (25, line))?;
    if words.len() > BANK {
        return Err((26, 0));
    }
    opcodes.fill(0);
    arguments.fill(0);
    for (at, [opcode, argument]) in words.iter().enumerate() {
        opcodes[at] = *opcode;
        arguments[at] = *argument;
    }
    Ok(words.len())
}
