//! `cesca print`: the words of banks as text.

use super::banks::Banks;
use super::console::Console;
use super::failure::Failure;
use super::input;
use super::options::Options;
use cesca::{decode, instruction_text};
use std::io::Write;

/// Writes the instruction of each word up to the last that isn't 00 00.
pub fn print(console: &mut Console, options: &Options) -> Result<(), Failure> {
    let name = &options.files[0];
    let banks = Banks::stored(&input::bytes(name)?);
    let banks = banks.map_err(|refusal| Failure::of_refusal(name, &refusal))?;
    let words = banks.opcodes.iter().zip(&banks.arguments);
    let used = words.clone().rposition(|word| word != (&0, &0)).map_or(0, |last| last + 1);
    for (opcode, argument) in words.take(used) {
        writeln!(console, "{}", instruction_text(decode([*opcode, *argument])))?;
    }
    Ok(())
}
