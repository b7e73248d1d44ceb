//! A listing that is being read line by line.

use super::error::TextError;
use super::line::{read, Line};
use crate::{Listing, Routine};
use cesca_types::{BANK, MOST_ROUTINES, SHEET};

/// What the lines so far have said.
struct Draft {
    opcodes: [u8; BANK],
    arguments: [u8; BANK],
    sheet: [u8; SHEET],
    /// The line of each address.
    lines: [Option<usize>; BANK],
    /// The routines by number, each with its line.
    routines: Vec<(usize, Routine)>,
}

impl Listing {
    /// The listing that a text describes, or the first line that is wrong and why.
    ///
    /// A line is `routine 1 at 4 need 1`, or an address with its sheet word, its two bytes and the
    /// instruction that they stand for: `0 8000 30 05 mov R0, 5`. `0-254 8000+ 5C 00 push R0` is a
    /// line for each of these addresses, the depth one higher at each. Routines come in their
    /// order, and addresses without a line are 0 throughout.
    pub fn from_text(text: &str) -> Result<Listing, TextError> {
        let mut draft = Draft::blank();
        for (line, written) in (1..).zip(text.lines()) {
            draft.add(line, written).map_err(|reason| TextError { line, reason })?;
        }
        let end = text.lines().count().max(1);
        draft.listing().map_err(|reason| TextError { line: end, reason })
    }
}

impl Draft {
    /// Nothing yet.
    fn blank() -> Draft {
        Draft {
            opcodes: [0; BANK],
            arguments: [0; BANK],
            sheet: [0; SHEET],
            lines: [None; BANK],
            routines: Vec::new(),
        }
    }

    /// Takes in a line, or says what is wrong with it.
    fn add(&mut self, line: usize, written: &str) -> Result<(), String> {
        match read(written)? {
            Line::Blank => Ok(()),
            Line::Routine(number, routine) => self.add_routine(line, number.into(), routine),
            Line::Words(sheet, word) => {
                sheet.into_iter().try_for_each(|(at, sheet)| self.add_word(line, at, sheet, word))
            }
        }
    }

    /// Takes in a routine, if it is the next one.
    fn add_routine(&mut self, line: usize, number: usize, it: Routine) -> Result<(), String> {
        let next = self.routines.len();
        if let Some((first, _)) = self.routines.get(number) {
            Err(format!("routine {number} was given on line {first}"))
        } else if number > next {
            Err(format!("routine {number} comes where routine {next} is due"))
        } else if next == MOST_ROUTINES {
            Err(format!("routine {number} is one too many: a listing has {MOST_ROUTINES} at most"))
        } else {
            self.routines.push((line, it));
            Ok(())
        }
    }

    /// Takes in an address, if it wasn't given before.
    fn add_word(
        &mut self,
        line: usize,
        at: u8,
        sheet: u16,
        [opcode, argument]: [u8; 2],
    ) -> Result<(), String> {
        let place = usize::from(at);
        if let Some(first) = self.lines[place].replace(line) {
            return Err(format!("address {at} was given on line {first}"));
        }
        (self.opcodes[place], self.arguments[place]) = (opcode, argument);
        [self.sheet[2 * place], self.sheet[2 * place + 1]] = sheet.to_le_bytes();
        Ok(())
    }

    /// The listing, if there is a routine.
    fn listing(self) -> Result<Listing, String> {
        if self.routines.is_empty() {
            return Err("the text ends without a routine".to_string());
        }
        let list = self.routines.iter().flat_map(|(_, routine)| [routine.entry, routine.need]);
        let list: Vec<u8> = list.collect();
        Listing::from_parts(self.opcodes, self.arguments, self.sheet, &list)
            .map_err(|refusal| refusal.to_string())
    }
}
