//! Listings: their parts, their files and their admission.

use crate::calls::{admit, decode};
use crate::draw::draw;
use crate::explain::explained;
use crate::lengths::of_parts;
use crate::{Admitted, Routine, SheetWord};
use cesca_types::{Drawing, Fields, Refusal, BANK, MOST_LIST, SHEET};

/// A listing: 256 opcodes, 256 arguments, the sheet and the routine list.
#[derive(Clone, Debug, PartialEq, Eq)]
pub struct Listing {
    opcodes: [u8; BANK],
    arguments: [u8; BANK],
    sheet: [u8; SHEET],
    routines: Vec<Routine>,
}

impl Listing {
    /// The listing in a file as the desk reads it, or the refusal 1, 2 or 3 of its length.
    ///
    /// The file has opcodes, arguments, sheet and list one behind another. Bytes past the 1,153
    /// that the desk reads aren't looked at: with them, the list is too long.
    pub fn from_bytes(file: &[u8]) -> Result<Listing, Refusal> {
        let (opcodes, rest) = file.split_at(file.len().min(BANK));
        let (arguments, rest) = rest.split_at(rest.len().min(BANK));
        let (sheet, list) = rest.split_at(rest.len().min(SHEET));
        let lengths = [opcodes, arguments, sheet, list].map(<[u8]>::len);
        let (Ok(opcodes), Ok(arguments)) = (opcodes.try_into(), arguments.try_into()) else {
            return Err(refusal(1, lengths));
        };
        let sheet = sheet.try_into().map_err(|_| refusal(2, lengths))?;
        Listing::from_parts(opcodes, arguments, sheet, list)
    }

    /// The listing of these parts, or the refusal 3 of the list's length.
    ///
    /// The sheet has the low byte of each word first, the list entry and need of each routine.
    pub fn from_parts(
        opcodes: [u8; BANK],
        arguments: [u8; BANK],
        sheet: [u8; SHEET],
        list: &[u8],
    ) -> Result<Listing, Refusal> {
        let (routines, rest) = list.as_chunks();
        if !rest.is_empty() || routines.is_empty() || list.len() > MOST_LIST {
            return Err(refusal(3, [BANK, BANK, SHEET, list.len()]));
        }
        let routines = routines.iter().map(|[entry, need]| Routine { entry: *entry, need: *need });
        Ok(Listing { opcodes, arguments, sheet, routines: routines.collect() })
    }

    /// The listing of these banks with the sheet and the list that [`draw`](crate::draw()) draws
    /// for them, or the refusal 27 where no sheet and list at all would be admitted.
    ///
    /// It is admitted, and each of its needs is the least that the rules allow.
    pub fn from_banks(opcodes: [u8; BANK], arguments: [u8; BANK]) -> Result<Listing, Refusal> {
        let Drawing { sheet, list } = draw(&opcodes, &arguments)?;
        Listing::from_parts(opcodes, arguments, sheet, &list)
    }

    /// The file of the listing.
    pub fn to_bytes(&self) -> Vec<u8> {
        [&self.opcodes[..], &self.arguments, &self.sheet, &self.list()].concat()
    }

    /// The bank of opcodes.
    pub fn opcodes(&self) -> &[u8; BANK] {
        &self.opcodes
    }

    /// The bank of arguments.
    pub fn arguments(&self) -> &[u8; BANK] {
        &self.arguments
    }

    /// The word at an address, opcode first.
    pub fn word(&self, at: u8) -> [u8; 2] {
        let at = usize::from(at);
        [self.opcodes[at], self.arguments[at]]
    }

    /// The instruction at an address.
    pub fn instruction(&self, at: u8) -> Fields {
        decode(self.word(at))
    }

    /// What the sheet says of an address.
    pub fn sheet_word(&self, at: u8) -> SheetWord {
        let (words, _) = self.sheet.as_chunks();
        u16::from_le_bytes(words[usize::from(at)]).into()
    }

    /// The routines by number, 1 to 64 of them.
    pub fn routines(&self) -> &[Routine] {
        &self.routines
    }

    /// The listing as admitted by the proved library, or the first rule that it breaks, with what
    /// is wrong as far as the listing tells.
    pub fn admit(&self) -> Result<Admitted, Refusal> {
        match admit(&self.opcodes, &self.arguments, &self.sheet, &self.list()) {
            Ok(()) => Ok(Admitted::new(self)),
            Err(refusal) => Err(explained(self, refusal)),
        }
    }

    /// The sheet's bytes, the low byte of each word first.
    pub(crate) fn sheet(&self) -> &[u8; SHEET] {
        &self.sheet
    }

    /// The routine list's bytes, entry and need of each.
    pub(crate) fn list(&self) -> Vec<u8> {
        self.routines.iter().flat_map(|routine| [routine.entry, routine.need]).collect()
    }
}

/// The refusal 1, 2 or 3 of parts that are so long.
fn refusal(number: u8, lengths: [usize; 4]) -> Refusal {
    let refusal = Refusal::of_listing(number, 0);
    match of_parts(number, lengths) {
        Some(words) => refusal.with_words(words),
        None => refusal,
    }
}
