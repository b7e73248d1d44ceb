//! The grounds that are asked address by address.

use super::Opened;
use crate::{Routine, SheetWord};
use cesca_types::{Class, Effect, Facts, Refusal};

/// The last address.
const LAST: u8 = 255;

/// A described address with all that the rules ask about it.
pub struct Place<'a> {
    pub listing: &'a Opened<'a>,
    pub at: u8,
    pub word: SheetWord,
    /// The need of the word's routine.
    pub need: u8,
    pub facts: Facts,
}

impl Place<'_> {
    /// Success, or the first ground from 8 on.
    pub fn check(&self) -> Result<(), Refusal> {
        let Facts { class, tests, .. } = self.facts;
        let (routine, depth) = (self.word.routine(), self.word.depth());
        let rules = [
            (8, depth > self.need),
            (9, class == Class::JumpRegister),
            (10, tests && !self.word.settled()),
            (11, matches!(class, Class::Pop | Class::Swap) && depth == 0),
            (12, class == Class::Return && (routine == 0 || depth > 0)),
            (13, self.at == LAST && self.goes_on()),
            (14, class == Class::Call && self.callee().is_none()),
            (15, self.callee().is_some_and(|callee| self.exceeds(callee))),
            (16, self.successors().any(|at| !self.fits(self.listing.word(at)))),
        ];
        let broken = rules.into_iter().find(|(_, broken)| *broken);
        broken.map_or(Ok(()), |(number, _)| Err(Refusal::of_listing(number, self.at)))
    }

    /// Whether the next word is a successor.
    fn goes_on(&self) -> bool {
        !matches!(self.facts.class, Class::Halt | Class::Return | Class::Jump)
    }

    /// The addresses that may come next in the same routine.
    fn successors(&self) -> impl Iterator<Item = u8> {
        let jumps = matches!(self.facts.class, Class::Jump | Class::Branch);
        let target = jumps.then_some(self.facts.operand);
        let next = self.goes_on().then_some(self.at.wrapping_add(1));
        target.into_iter().chain(next)
    }

    /// The routine that a call goes to, if there is one with that entry.
    fn callee(&self) -> Option<Routine> {
        let calls = self.facts.class == Class::Call;
        let mut routines = self.listing.routines.iter().copied();
        routines.find(|routine| calls && routine.entry == self.facts.operand)
    }

    /// Whether the routine's own need is too small for a call here.
    fn exceeds(&self, callee: Routine) -> bool {
        u16::from(self.word.depth()) + 1 + u16::from(callee.need) > u16::from(self.need)
    }

    /// Whether a successor may have this word.
    fn fits(&self, next: SheetWord) -> bool {
        next.described()
            && next.routine() == self.word.routine()
            && i16::from(next.depth()) == self.depth_after()
            && (self.may_settle() || !next.settled())
    }

    /// The depth at a successor.
    fn depth_after(&self) -> i16 {
        let depth = i16::from(self.word.depth());
        match self.facts.class {
            Class::Push => depth + 1,
            Class::Pop => depth - 1,
            _ => depth,
        }
    }

    /// Whether V may be marked at a successor.
    fn may_settle(&self) -> bool {
        let settled = match self.facts.overflow {
            Effect::Settles => true,
            Effect::Leaves => self.word.settled(),
            Effect::Unsettles => false,
        };
        settled && self.facts.class != Class::Call
    }
}
