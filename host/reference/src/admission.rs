//! Admission: the grounds one after another, as the scope paper lists them.

mod place;

use super::sheet::{routines, words};
use super::{Function, Instruction, Routine, Settles, SheetWord};
use cesca_types::{Refusal, BANK, MOST_ROUTINES, SHEET};
use place::Place;

/// Success if the listing is admitted, else the first ground that refuses it.
pub fn admit(opcodes: &[u8], arguments: &[u8], sheet: &[u8], list: &[u8]) -> Result<(), Refusal> {
    admit_by(Function::settles_overflow, opcodes, arguments, sheet, list)
}

/// The same, if these functions of the ALU settle V: they were others before request 4.
pub fn admit_by(
    settles: Settles,
    opcodes: &[u8],
    arguments: &[u8],
    sheet: &[u8],
    list: &[u8],
) -> Result<(), Refusal> {
    refuse_whole(1, opcodes.len() != BANK || arguments.len() != BANK)?;
    refuse_whole(2, sheet.len() != SHEET)?;
    let odd = !list.len().is_multiple_of(2);
    refuse_whole(3, odd || list.is_empty() || list.len() > 2 * MOST_ROUTINES)?;
    let (sheet, routines) = (words(sheet), routines(list));
    Opened { settles, opcodes, arguments, sheet, routines }.check()
}

/// The ground with this number if there is a place that breaks it.
fn refuse(number: u8, place: Option<u8>) -> Result<(), Refusal> {
    place.map_or(Ok(()), |place| Err(Refusal::of_listing(number, place)))
}

/// The ground with this number, which has no place, if it is broken.
fn refuse_whole(number: u8, broken: bool) -> Result<(), Refusal> {
    refuse(number, broken.then_some(0))
}

/// A listing whose parts have their lengths.
struct Opened<'a> {
    settles: Settles,
    opcodes: &'a [u8],
    arguments: &'a [u8],
    sheet: Vec<SheetWord>,
    routines: Vec<Routine>,
}

impl Opened<'_> {
    /// Success, or the first ground from 4 on.
    fn check(&self) -> Result<(), Refusal> {
        refuse(4, self.lowest(|word| !word.described() && word != SheetWord(0)))?;
        refuse(5, self.lowest(|word| word.described() && self.routine(word).is_none()))?;
        refuse_whole(6, self.routines[0].entry != 0)?;
        refuse(7, self.lowest_bad_entry())?;
        let described = (0..=255).filter(|at| self.word(*at).described());
        described.map(|at| self.place(at)).try_for_each(|place| place.check())
    }

    /// The sheet's word for an address.
    fn word(&self, at: u8) -> SheetWord {
        self.sheet[usize::from(at)]
    }

    /// The lowest address with such a word.
    fn lowest(&self, such: impl Fn(SheetWord) -> bool) -> Option<u8> {
        (0..=255).find(|at| such(self.word(*at)))
    }

    /// The routine that a word names, if the list has it.
    fn routine(&self, word: SheetWord) -> Option<Routine> {
        self.routines.get(usize::from(word.routine())).copied()
    }

    /// The lowest routine whose entry's word isn't just described, its own, at depth 0.
    fn lowest_bad_entry(&self) -> Option<u8> {
        let numbered = (0..).zip(&self.routines);
        let mut bad = numbered.filter(|(number, routine)| {
            let word = self.word(routine.entry);
            let other = word.routine() != *number;
            !word.described() || other || word.depth() > 0 || word.settled()
        });
        bad.next().map(|(number, _)| number)
    }

    /// A described address with all that the rules ask about it.
    fn place(&self, at: u8) -> Place<'_> {
        let index = usize::from(at);
        let instruction = Instruction::of_word([self.opcodes[index], self.arguments[index]]);
        let word = self.word(at);
        let routine = self.routine(word).expect("ground 5 is past");
        let facts = instruction.facts_by(self.settles);
        Place { listing: self, at, word, need: routine.need, facts }
    }
}

#[cfg(test)]
mod tests {
    use crate::Listing;

    #[test]
    fn listing_a_and_the_marked_answers() {
        let answer = |listing: Listing| listing.admit().map_err(|refusal| refusal.answer());
        assert_eq!(answer(Listing::a()), Ok(()));
        assert_eq!(answer(Listing::a().with_list(&[0, 1, 4, 1])), Err(271)); // M9
        assert_eq!(answer(Listing::a().with_sheet(2, 0xC000)), Err(272)); // M10
    }
}
