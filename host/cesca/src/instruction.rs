//! An instruction at its address, and what the rules ask about it.

use crate::calls::facts;
use crate::text::mnemonic;
use cesca_types::{Class, Effect, Facts, Fields};

/// An instruction at its address.
#[derive(Clone, Copy)]
pub struct Instruction {
    pub at: u8,
    pub fields: Fields,
    pub facts: Facts,
}

impl Instruction {
    /// The instruction of these fields at an address.
    pub fn new(at: u8, fields: Fields) -> Instruction {
        Instruction { at, fields, facts: facts(fields) }
    }

    /// Its mnemonic.
    pub fn mnemonic(&self) -> String {
        mnemonic(self.fields)
    }

    /// Whether the next word is a successor.
    pub fn goes_on(&self) -> bool {
        !matches!(self.facts.class, Class::Halt | Class::Return | Class::Jump)
    }

    /// The addresses that may come next in the same routine, the target of a jump first.
    pub fn successors(&self) -> impl Iterator<Item = u8> {
        let jumps = matches!(self.facts.class, Class::Jump | Class::Branch);
        let target = jumps.then_some(self.facts.operand);
        let next = self.at.checked_add(1).filter(|_| self.goes_on());
        target.into_iter().chain(next)
    }

    /// The address that a call goes to.
    pub fn called(&self) -> Option<u8> {
        (self.facts.class == Class::Call).then_some(self.facts.operand)
    }

    /// The depth that is due at a successor, after this one.
    pub fn depth_after(&self, depth: i16) -> i16 {
        match self.facts.class {
            Class::Push => depth + 1,
            Class::Pop => depth - 1,
            _ => depth,
        }
    }

    /// Whether V may be marked at a successor, by whether it is marked here.
    pub fn settles(&self, marked: bool) -> bool {
        match (self.facts.class, self.facts.overflow) {
            (Class::Call, _) | (_, Effect::Unsettles) => false,
            (_, Effect::Settles) => true,
            (_, Effect::Leaves) => marked,
        }
    }

    /// What is wrong if it goes on where there is no next word.
    pub fn past_the_end(&self) -> Option<String> {
        let when = match self.facts.class {
            Class::Branch => " if it isn't taken",
            Class::Call => " after its return",
            _ => "",
        };
        let past = self.at == u8::MAX && self.goes_on();
        past.then(|| format!("{} would go on past address 255{when}", self.mnemonic()))
    }
}
