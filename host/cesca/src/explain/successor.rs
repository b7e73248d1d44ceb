//! Where an instruction leads: 16.

use super::address::Address;
use crate::SheetWord;

impl Address<'_> {
    /// 16: the first successor with a word that doesn't fit, and what is wrong with it.
    pub fn successor(&self) -> Option<String> {
        let mut wrong = self.instruction.successors().filter_map(|at| {
            let wrong = self.misfit(self.listing.sheet_word(at))?;
            Some(format!("{} leads to address {at}, which {wrong}", self.instruction.mnemonic()))
        });
        wrong.next()
    }

    /// What is wrong with the word of a successor.
    fn misfit(&self, next: SheetWord) -> Option<String> {
        let SheetWord { routine, depth, settled, .. } = self.word;
        let due = self.instruction.depth_after(depth.into());
        if !next.described {
            Some("is not described".to_string())
        } else if next.routine != routine {
            Some(format!("is in routine {} instead of {routine}", next.routine))
        } else if i16::from(next.depth) != due {
            Some(format!("is at depth {} where {due} is due", next.depth))
        } else if next.settled && !self.instruction.settles(settled) {
            Some("marks V although V may be unsettled".to_string())
        } else {
            None
        }
    }
}
