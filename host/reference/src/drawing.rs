//! Sheets drawn for members (02, request 2): sheet and list from the banks alone.
//!
//! Three looks, one after another: what is reached, with the routine and the depth that every
//! admitted sheet must give it; then where V can be marked; then what each routine needs. Each ends
//! at the first thing that no sheet can put right, so nothing is asked of admission afterwards.

mod hindrance;
mod marks;
mod needs;
mod reach;
#[cfg(test)]
mod tests;

use super::SheetWord;
use cesca_types::{BANK, MOST_LIST, MOST_ROUTINES, SHEET};
pub use hindrance::Hindrance;
use reach::Reach;

/// The number of routines of the sheet and list that are drawn into these buffers, or the number of
/// what is wrong.
///
/// The buffers are filled whole; a refusal leaves them as they were.
pub fn draw(
    opcodes: &[u8],
    arguments: &[u8],
    sheet: &mut [u8],
    list: &mut [u8],
) -> Result<usize, u8> {
    if opcodes.len() != BANK || arguments.len() != BANK {
        return Err(1);
    }
    if sheet.len() != SHEET {
        return Err(2);
    }
    if list.len() != MOST_LIST {
        return Err(3);
    }
    let drawing = Drawing::of(opcodes, arguments).map_err(|_| 27)?;
    drawing.write_sheet(sheet);
    drawing.write_list(list);
    Ok(drawing.entries.len())
}

/// Why nothing is drawn for two banks of 256 bytes, where nothing is.
pub fn hindrance(opcodes: &[u8], arguments: &[u8]) -> Option<Hindrance> {
    Drawing::of(opcodes, arguments).err()
}

/// All that a sheet and a list are written from.
struct Drawing {
    reach: Reach,
    /// The entries in the order of the routines' numbers.
    entries: Vec<u8>,
    /// Whether V is marked, by address.
    marks: [bool; BANK],
    /// The need of each routine, by its entry.
    needs: [u8; BANK],
}

impl Drawing {
    /// The drawing for two banks, or why there is none.
    fn of(opcodes: &[u8], arguments: &[u8]) -> Result<Drawing, Hindrance> {
        let reach = Reach::from_start(opcodes, arguments)?;
        let mut entries: Vec<u8> = reach.entries().collect();
        if entries.len() > MOST_ROUTINES {
            return Err(Hindrance::TooManyRoutines);
        }
        // Routine 0's entry is the lowest address of all, so it comes first.
        entries.sort_unstable();
        let marks = marks::marks(&reach)?;
        let needs = needs::needs(&reach)?;
        Ok(Drawing { reach, entries, marks, needs })
    }

    /// Writes a word for each address, 0 where it isn't reached.
    fn write_sheet(&self, sheet: &mut [u8]) {
        let mut numbers = [0; BANK];
        for (number, entry) in (0..).zip(&self.entries) {
            numbers[usize::from(*entry)] = number;
        }
        sheet.fill(0);
        for place in self.reach.places() {
            let (number, at) = (numbers[usize::from(place.entry)], usize::from(place.at));
            let word = SheetWord::new(number, place.depth, self.marks[at]);
            sheet[2 * at..][..2].copy_from_slice(&word.0.to_le_bytes());
        }
    }

    /// Writes entry and need of each routine, and 0 behind them.
    fn write_list(&self, list: &mut [u8]) {
        list.fill(0);
        for (routine, entry) in list.chunks_exact_mut(2).zip(&self.entries) {
            routine.copy_from_slice(&[*entry, self.needs[usize::from(*entry)]]);
        }
    }
}
