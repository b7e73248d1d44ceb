//! How the program is used.

use super::commands::COMMANDS;
use super::console::Console;
use super::failure::Failure;
use std::io::Write;

/// What the files are, and what the status tells.
const NOTES: &str = "
FILE is a listing as the desk reads it, TEXT one as in listings/README.md.
SOURCE has an instruction on each line, and BANKS has 256 opcodes and 256
arguments, with which a FILE begins too. SHELF is a shelf file.
- is standard input (not for `cesca step`, which reads its steps there); for a
file that is made, it is standard output.

The status is 0 if all went well, 1 if something was refused, 2 if usage or
input was wrong.";

/// How the program is typed.
pub fn usage() -> String {
    let names: Vec<&str> = COMMANDS.iter().map(|command| command.name).collect();
    format!("cesca {}|help ..", names.join("|"))
}

/// Writes how the program is used.
pub fn help(console: &mut Console) -> Result<(), Failure> {
    writeln!(console, "The admission desk and the machine for CESCA listings.\n")?;
    for command in &COMMANDS {
        writeln!(console, "{}", command.usage())?;
        for line in command.about {
            writeln!(console, "    {line}")?;
        }
    }
    writeln!(console, "cesca help")?;
    writeln!(console, "    Prints this.")?;
    writeln!(console, "{NOTES}")?;
    Ok(())
}
