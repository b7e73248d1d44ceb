//! Shelf files: listings without the zeros behind them, written and opened by the proved library.

mod explain;
mod refusal;
#[cfg(test)]
mod tests;

use crate::lengths::of_parts;
use crate::raw::shelf::{cesca_open, cesca_shelve};
use crate::text::bytes;
use crate::Listing;
use cesca_types::{Refusal, BANK, MOST_LIST, SHEET, SHELF};
use explain::explained;
pub use refusal::ShelfRefusal;

/// The shelf file of a listing, 4 to 2,051 bytes.
///
/// It is a row of numbers in seven-bit groups: n, the opcode, argument and sheet word of the first
/// n addresses, behind which all is 0, the number of routines, and entry and need of each. A
/// listing has one file, whether it would be admitted or not, and [`open`] gives it back.
///
/// ```
/// # fn main() -> Result<(), Box<dyn std::error::Error>> {
/// let banks = cesca::assemble(b"mov R0, 200\nhlt\n")?;
/// let listing = cesca::Listing::from_banks(banks.opcodes, banks.arguments)?;
/// let file = cesca::shelve(&listing);
/// let words = [0x30, 0xC8, 0x01, 0x80, 0x80, 0x02, 0xF8, 0x01, 0x00, 0x80, 0x80, 0x02];
/// assert_eq!(file, [&[2][..], &words, &[1, 0, 0]].concat()); // routine 0 at 0 needs no byte
/// assert_eq!(cesca::open(&file)?, listing);
///
/// let refusal = cesca::open(&file[..3]).unwrap_err();
/// assert_eq!((refusal.number(), refusal.byte()), (30, Some(2)));
/// assert_eq!(refusal.to_string(), "30 at byte 2: the argument of address 0 is cut off: C8");
/// # Ok(())
/// # }
/// ```
pub fn shelve(listing: &Listing) -> Vec<u8> {
    let mut file = vec![0; SHELF];
    let (opcodes, arguments) = (listing.opcodes(), listing.arguments());
    let length = shelve_into(opcodes, arguments, listing.sheet(), &listing.list(), &mut file);
    file.truncate(length.expect("a listing's parts have their lengths, and any file has room"));
    file
}

/// The listing of a shelf file, or the first ground that refuses it.
///
/// Numbers are judged from the front, each for being whole and in its shortest form (30) and then
/// for its field (31). Last come n that isn't the least and bytes that follow (31).
pub fn open(file: &[u8]) -> Result<Listing, ShelfRefusal> {
    let (mut opcodes, mut arguments) = ([0; BANK], [0; BANK]);
    let (mut sheet, mut list) = ([0; SHEET], [0; MOST_LIST]);
    let routines = open_into(file, &mut opcodes, &mut arguments, &mut sheet, &mut list)?;
    let listing = Listing::from_parts(opcodes, arguments, sheet, &list[..2 * routines]);
    Ok(listing.expect("a list of 1 to 64 routines"))
}

/// The length of the shelf file of a listing's parts, which now stands at the beginning of `out`,
/// or the first ground that refuses it. The bytes behind it are kept.
///
/// A refusal leaves `out` as it was: first banks that aren't of 256 bytes (1), then a sheet that
/// isn't of 512 (2), then a list that no listing has (3), then an `out` under [`SHELF`] bytes (32),
/// whatever the file's own length.
pub fn shelve_into(
    opcodes: &[u8],
    arguments: &[u8],
    sheet: &[u8],
    list: &[u8],
    out: &mut [u8],
) -> Result<usize, Refusal> {
    // SAFETY: each pointer comes with the length of the slice behind it, and `out` is borrowed for
    // writing during the call, so it overlaps nothing.
    let answer = unsafe {
        cesca_shelve(
            opcodes.as_ptr(),
            opcodes.len(),
            arguments.as_ptr(),
            arguments.len(),
            sheet.as_ptr(),
            sheet.len(),
            list.as_ptr(),
            list.len(),
            out.as_mut_ptr(),
            out.len(),
        )
    };
    let lengths = [opcodes, arguments, sheet, list].map(<[u8]>::len);
    answer.outcome().map_err(|refusal| sized(refusal, lengths, out.len()))
}

/// The refusal to write a file with the length that is wrong.
fn sized(refusal: Refusal, lengths: [usize; 4], out: usize) -> Refusal {
    let words = match refusal.number() {
        32 => Some(format!("the shelf file's buffer has {}, under 2,051", bytes(out))),
        number => of_parts(number, lengths),
    };
    match words {
        Some(words) => refusal.with_words(words),
        None => refusal,
    }
}

/// The number of routines of a shelf file's listing, whose parts now fill the four buffers, the
/// list with 0 behind its routines; or the first ground that refuses it.
///
/// A refusal leaves the buffers as they were: first banks that aren't of 256 bytes (1), then a
/// sheet buffer that isn't of 512 (2), then a list buffer that isn't of 128 (3), then what [`open`]
/// refuses.
pub fn open_into(
    file: &[u8],
    opcodes: &mut [u8],
    arguments: &mut [u8],
    sheet: &mut [u8],
    list: &mut [u8],
) -> Result<usize, ShelfRefusal> {
    // SAFETY: each pointer comes with the length of the slice behind it, and the four buffers are
    // borrowed for writing during the call, so they overlap nothing.
    let answer = unsafe {
        cesca_open(
            file.as_ptr(),
            file.len(),
            opcodes.as_mut_ptr(),
            opcodes.len(),
            arguments.as_mut_ptr(),
            arguments.len(),
            sheet.as_mut_ptr(),
            sheet.len(),
            list.as_mut_ptr(),
            list.len(),
        )
    };
    let lengths = [opcodes.len(), arguments.len(), sheet.len(), list.len()];
    answer.outcome().map_err(|refusal| explained(refusal, file, lengths))
}
