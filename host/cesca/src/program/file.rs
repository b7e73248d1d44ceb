//! `cesca file`: the desk's file of a listing's text.

use super::console::Console;
use super::failure::Failure;
use super::options::Options;
use super::{input, output};
use cesca::Listing;

/// Writes the file of the listing that a text describes.
pub fn file(console: &mut Console, options: &Options) -> Result<(), Failure> {
    let (text, file) = (&options.files[0], &options.files[1]);
    let listing = Listing::from_text(&input::text(text)?);
    let listing = listing.map_err(|error| Failure::of_text(text, &error))?;
    output::write(console, text, file, &listing.to_bytes())
}
