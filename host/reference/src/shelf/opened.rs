//! What a file opens to.

use super::reader::{Reader, Refused};
use cesca_types::{BANK, MOST_LIST, MOST_ROUTINES, SHEET};

/// The parts of a listing, 0 where its file says nothing.
pub struct Opened {
    pub opcodes: [u8; BANK],
    pub arguments: [u8; BANK],
    pub sheet: [u8; SHEET],
    pub list: [u8; MOST_LIST],
    pub routines: usize,
}

impl Opened {
    /// The parts that a file tells, or number and byte of what is wrong.
    pub fn read(file: &[u8]) -> Result<Opened, Refused> {
        let mut opened = Opened {
            opcodes: [0; BANK],
            arguments: [0; BANK],
            sheet: [0; SHEET],
            list: [0; MOST_LIST],
            routines: 0,
        };
        let mut reader = Reader::new(file);
        let n = reader.number_in(0..=BANK)?;
        for at in 0..n {
            opened.opcodes[at] = reader.number()?;
            opened.arguments[at] = reader.number()?;
            let word: u16 = reader.number()?;
            opened.sheet[2 * at..][..2].copy_from_slice(&word.to_le_bytes());
        }
        opened.routines = reader.number_in(1..=MOST_ROUTINES)?;
        for byte in &mut opened.list[..2 * opened.routines] {
            *byte = reader.number()?;
        }
        if n > 0 && opened.is_blank(n - 1) {
            return Err((31, 0));
        }
        reader.end()?;
        Ok(opened)
    }

    /// Whether opcode, argument and sheet word of an address are 0.
    fn is_blank(&self, at: usize) -> bool {
        self.opcodes[at] == 0 && self.arguments[at] == 0 && self.sheet[2 * at..][..2] == [0, 0]
    }
}
