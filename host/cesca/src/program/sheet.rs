//! `cesca sheet`: a listing's routines and addresses, and what is wrong with them.

use super::bar::Scale;
use super::console::Console;
use super::failure::{Failure, Status};
use super::input;
use super::options::Options;
use cesca::{instruction_text, Listing, Refusal, SheetWord};
use std::io::{self, Write};

/// What is marked with `<`.
#[derive(Clone, Copy, PartialEq, Eq)]
enum Mark {
    /// Nothing.
    None,
    /// A routine.
    Routine(u8),
    /// An address.
    Address(u8),
}

/// Writes the sheet of the listing in a file.
pub fn sheet(console: &mut Console, options: &Options) -> Result<(), Failure> {
    match input::listing(&input::bytes(&options.files[0])?) {
        Ok(listing) => show(console, &listing)?,
        Err(refusal) => refused(console, &refusal)?,
    }
    Ok(())
}

/// Writes a listing's routines, whether it is admitted, and its addresses.
pub fn show(console: &mut Console, listing: &Listing) -> io::Result<()> {
    let answer = listing.admit();
    let mark = answer.as_ref().map_or_else(Mark::of, |_| Mark::None);
    for (number, routine) in (0..).zip(listing.routines()) {
        let mark = mark.shown(Mark::Routine(number));
        writeln!(console, "routine {number} at {} need {}{mark}", routine.entry, routine.need)?;
    }
    match &answer {
        Ok(admitted) => writeln!(console, "admitted need {}", admitted.need())?,
        Err(refusal) => refused(console, refusal)?,
    }
    addresses(console, listing, mark)
}

/// Writes a refusal, and makes it the status.
fn refused(console: &mut Console, refusal: &Refusal) -> io::Result<()> {
    console.raise(Status::Refused);
    writeln!(console, "refused {refusal}")
}

/// Writes a line for each address that is described or marked.
fn addresses(console: &mut Console, listing: &Listing, mark: Mark) -> io::Result<()> {
    let words = (0..=u8::MAX).map(|at| (at, listing.sheet_word(at)));
    let described = words.clone().filter(|(_, word)| word.described);
    let scale = Scale::of(described.map(|(_, word)| word.depth).max().unwrap_or_default());
    writeln!(console)?;
    if scale.bytes() > 1 {
        writeln!(console, "a # is {} bytes", scale.bytes())?;
    }
    let width = scale.width();
    writeln!(console, " at  routine  depth  {:width$}  V  instruction", "")?;
    for (at, word) in words.filter(|(at, word)| word.described || mark == Mark::Address(*at)) {
        let instruction = instruction_text(listing.instruction(at));
        let mark = mark.shown(Mark::Address(at));
        writeln!(console, "{at:>3}  {}  {instruction}{mark}", columns(word, &scale))?;
    }
    Ok(())
}

/// Routine, depth, its bar and V of a sheet word, dashes if the address isn't described.
fn columns(word: SheetWord, scale: &Scale) -> String {
    let width = scale.width();
    let SheetWord { described, settled, routine, depth } = word;
    if !described {
        return format!("{:>7}  {:>5}  {:width$}  -", '-', '-', "");
    }
    let (bar, v) = (scale.bar(depth), if settled { 'V' } else { '-' });
    format!("{routine:>7}  {depth:>5}  {bar:width$}  {v}")
}

impl Mark {
    /// What a refusal is about: routine 0 for 6, a routine for 7, nothing for 1 to 3, else an
    /// address.
    fn of(refusal: &Refusal) -> Mark {
        match (refusal.number(), refusal.place()) {
            (6 | 7, Some(place)) => Mark::Routine(place),
            (4.., Some(place)) => Mark::Address(place),
            _ => Mark::None,
        }
    }

    /// What stands at the end of a line that is about this.
    fn shown(self, line: Mark) -> &'static str {
        if self == line {
            " <"
        } else {
            ""
        }
    }
}
