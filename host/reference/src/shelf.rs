//! Shelf files (02, request 7): a listing as a row of numbers in seven-bit groups, without the
//! zeros behind its last word.

mod opened;
mod reader;
#[cfg(test)]
mod tests;
mod writer;

use cesca_types::{BANK, MOST_LIST, SHEET, SHELF};
use opened::Opened;
use writer::Writer;

/// The length of the file of these parts, which then stands at the beginning of `out`, or the
/// number of what is wrong.
///
/// What lies behind the file is kept; a refusal leaves all of `out` as it was.
pub fn shelve(
    opcodes: &[u8],
    arguments: &[u8],
    sheet: &[u8],
    list: &[u8],
    out: &mut [u8],
) -> Result<usize, u8> {
    check(opcodes, arguments, sheet)?;
    if list.len() % 2 == 1 || !(2..=MOST_LIST).contains(&list.len()) {
        return Err(3);
    }
    if out.len() < SHELF {
        return Err(32);
    }
    let word = |at: usize| u16::from_le_bytes([sheet[2 * at], sheet[2 * at + 1]]);
    let used = |at: &usize| opcodes[*at] != 0 || arguments[*at] != 0 || word(*at) != 0;
    let n = (0..BANK).rev().find(used).map_or(0, |last| last + 1);
    let mut writer = Writer::new(out);
    writer.put(n);
    for at in 0..n {
        writer.put(opcodes[at].into());
        writer.put(arguments[at].into());
        writer.put(word(at).into());
    }
    writer.put(list.len() / 2);
    for byte in list {
        writer.put((*byte).into());
    }
    Ok(writer.length())
}

/// The number of routines of a file's listing, which then fills the buffers, or number and byte of
/// what is wrong.
///
/// The byte is where the wrong number begins, or the first byte too many; it is 0 for 1, 2 and 3,
/// which have none. A refusal leaves the buffers as they were.
pub fn open(
    file: &[u8],
    opcodes: &mut [u8],
    arguments: &mut [u8],
    sheet: &mut [u8],
    list: &mut [u8],
) -> Result<usize, (u8, usize)> {
    check(opcodes, arguments, sheet).map_err(|number| (number, 0))?;
    if list.len() != MOST_LIST {
        return Err((3, 0));
    }
    let opened = Opened::read(file)?;
    opcodes.copy_from_slice(&opened.opcodes);
    arguments.copy_from_slice(&opened.arguments);
    sheet.copy_from_slice(&opened.sheet);
    list.copy_from_slice(&opened.list);
    Ok(opened.routines)
}

/// Whether banks and sheet have their lengths, or 1 or 2.
fn check(opcodes: &[u8], arguments: &[u8], sheet: &[u8]) -> Result<(), u8> {
    if opcodes.len() != BANK || arguments.len() != BANK {
        return Err(1);
    }
    if sheet.len() != SHEET {
        return Err(2);
    }
    Ok(())
}
