//! `cesca open`: the listing of a shelf file.

use super::console::Console;
use super::failure::Failure;
use super::options::Options;
use super::{input, output};
use std::io::Write;

/// Writes the listing's file that a shelf file opens to, and tells both lengths.
pub fn open(console: &mut Console, options: &Options) -> Result<(), Failure> {
    let (shelf, name) = (&options.files[0], &options.files[1]);
    let shelved = input::shelved(shelf)?;
    let listing = cesca::open(&shelved);
    let listing = listing.map_err(|refusal| Failure::of_refusal(shelf, &refusal))?;
    let bytes = listing.to_bytes();
    output::write(console, shelf, name, &bytes)?;
    // Behind a listing on standard output, nothing is told.
    if name != input::STANDARD {
        let (made, own) = (bytes.len(), shelved.len());
        writeln!(console, "{}: {made} bytes, of a shelf file of {own}", name.display())?;
    }
    Ok(())
}
