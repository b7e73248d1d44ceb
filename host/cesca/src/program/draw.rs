//! `cesca draw`: the sheet and the routines that are drawn for banks.

use super::banks::Banks;
use super::console::Console;
use super::failure::Failure;
use super::options::Options;
use super::{input, output, sheet};
use cesca::{Listing, Routine};
use std::io::{self, Write};

/// Shows the sheet drawn for the banks that a file stands for, and writes the listing's file if one
/// is named. Of a listing, it is told which of its own needs aren't the least.
pub fn draw(console: &mut Console, options: &Options) -> Result<(), Failure> {
    let name = &options.files[0];
    let Banks { opcodes, arguments, listing } = Banks::of_file(name)?;
    let drawn = Listing::from_banks(opcodes, arguments);
    let drawn = drawn.map_err(|refusal| Failure::of_refusal(name, &refusal))?;
    if let Some(file) = options.files.get(1) {
        output::write(console, name, file, &drawn.to_bytes())?;
        // Behind a listing on standard output, nothing is shown.
        if file == input::STANDARD {
            return Ok(());
        }
    }
    sheet::show(console, &drawn)?;
    if let Some(own) = listing {
        needs(console, own.routines(), drawn.routines())?;
    }
    Ok(())
}

/// Writes an empty line, and a line for each routine whose own need isn't the least; nothing if
/// there is none.
fn needs(console: &mut Console, own: &[Routine], drawn: &[Routine]) -> io::Result<()> {
    let least = |entry| drawn.iter().find(|routine| routine.entry == entry);
    let mut before = "\n";
    for (number, Routine { entry, need }) in own.iter().enumerate() {
        if let Some(least) = least(*entry).filter(|least| least.need != *need) {
            let least = least.need;
            writeln!(console, "{before}routine {number} at {entry}: need {need}, least {least}")?;
            before = "";
        }
    }
    Ok(())
}
