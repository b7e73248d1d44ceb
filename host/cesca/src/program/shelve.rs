//! `cesca shelve`: the shelf file of a listing.

use super::console::Console;
use super::failure::Failure;
use super::options::Options;
use super::{input, output};
use std::io::Write;

/// Writes the shelf file of the listing in a file, admitted or not, and tells both lengths.
pub fn shelve(console: &mut Console, options: &Options) -> Result<(), Failure> {
    let (name, shelf) = (&options.files[0], &options.files[1]);
    let bytes = input::bytes(name)?;
    let listing = input::listing(&bytes);
    let listing = listing.map_err(|refusal| Failure::of_refusal(name, &refusal))?;
    let shelved = cesca::shelve(&listing);
    output::write(console, name, shelf, &shelved)?;
    // Behind a shelf file on standard output, nothing is told.
    if shelf != input::STANDARD {
        let (made, own) = (shelved.len(), bytes.len());
        writeln!(console, "{}: {made} bytes, of a listing of {own}", shelf.display())?;
    }
    Ok(())
}
