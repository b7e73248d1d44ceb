//! `cesca assemble`: the banks of a text.

use super::console::Console;
use super::failure::Failure;
use super::options::Options;
use super::{input, output};
use cesca::{decode, instruction_text, Assembled};
use std::ffi::OsStr;
use std::io::{self, Write};

/// Writes the banks that a text assembles to into a file, or shows their words if none is named.
pub fn assemble(console: &mut Console, options: &Options) -> Result<(), Failure> {
    let source = &options.files[0];
    let assembled = cesca::assemble(&input::source(source)?);
    let assembled = assembled.map_err(|refusal| Failure::of_refusal(source, &refusal))?;
    match options.files.get(1) {
        Some(banks) => store(console, &assembled, source, banks),
        None => Ok(show(console, &assembled)?),
    }
}

/// Writes the banks, and tells how many words they have.
fn store(
    console: &mut Console,
    assembled: &Assembled,
    source: &OsStr,
    banks: &OsStr,
) -> Result<(), Failure> {
    let Assembled { opcodes, arguments, words } = assembled;
    output::write(console, source, banks, &[*opcodes, *arguments].concat())?;
    // Behind banks on standard output, nothing is told.
    if banks != input::STANDARD {
        let plural = if *words == 1 { "" } else { "s" };
        writeln!(console, "{}: {words} word{plural}", banks.display())?;
    }
    Ok(())
}

/// Writes a line for each word.
fn show(console: &mut Console, assembled: &Assembled) -> io::Result<()> {
    writeln!(console, " at  word   instruction")?;
    let words = assembled.opcodes.iter().zip(&assembled.arguments).take(assembled.words);
    for (at, (opcode, argument)) in words.enumerate() {
        let instruction = instruction_text(decode([*opcode, *argument]));
        writeln!(console, "{at:>3}  {opcode:02X} {argument:02X}  {instruction}")?;
    }
    Ok(())
}
