//! What successors and calls reach from address 0, with the routine and depth of each address.

use super::Hindrance;
use crate::Instruction;
use cesca_types::{Class, Facts, BANK};

/// The last address.
const LAST: u8 = 255;

/// A reached address, as every admitted sheet must describe it.
#[derive(Clone, Copy)]
pub struct Place {
    pub at: u8,
    /// The entry of its routine.
    pub entry: u8,
    pub depth: u8,
    pub facts: Facts,
}

/// All reached addresses.
pub struct Reach {
    places: [Option<Place>; BANK],
    /// The reached addresses, in the order in which they were found.
    found: Vec<u8>,
}

impl Reach {
    /// What is reached from address 0, in routine 0 at depth 0.
    pub fn from_start(opcodes: &[u8], arguments: &[u8]) -> Result<Reach, Hindrance> {
        let facts = |at: u8| {
            let word = [opcodes[usize::from(at)], arguments[usize::from(at)]];
            Instruction::of_word(word).facts()
        };
        let mut reach = Reach { places: [None; BANK], found: Vec::with_capacity(BANK) };
        reach.add(Place { at: 0, entry: 0, depth: 0, facts: facts(0) })?;
        let mut followed = 0;
        while let Some(at) = reach.found.get(followed).copied() {
            let place = reach.place(at);
            let depth = place.depth_after()?;
            if let Some(at) = place.callee() {
                reach.add(Place { at, entry: at, depth: 0, facts: facts(at) })?;
            }
            for at in place.successors() {
                reach.add(Place { at, entry: place.entry, depth, facts: facts(at) })?;
            }
            followed += 1;
        }
        Ok(reach)
    }

    /// Adds a place, or finds it there already and the same.
    fn add(&mut self, place: Place) -> Result<(), Hindrance> {
        let there = &mut self.places[usize::from(place.at)];
        match there {
            None => {
                *there = Some(place);
                self.found.push(place.at);
                Ok(())
            }
            Some(known) if known.entry != place.entry => Err(Hindrance::TwoRoutines),
            Some(known) if known.depth != place.depth => Err(Hindrance::TwoDepths),
            Some(_) => Ok(()),
        }
    }

    /// The place of a reached address.
    pub fn place(&self, at: u8) -> Place {
        self.places[usize::from(at)].expect("a reached address")
    }

    /// All places.
    pub fn places(&self) -> impl Iterator<Item = Place> + '_ {
        self.found.iter().map(|at| self.place(*at))
    }

    /// The entries of all routines.
    pub fn entries(&self) -> impl Iterator<Item = u8> + '_ {
        self.places().filter(Place::is_entry).map(|place| place.at)
    }
}

impl Place {
    /// Whether its routine begins here.
    pub fn is_entry(&self) -> bool {
        self.at == self.entry
    }

    /// The entry of the routine that it calls.
    pub fn callee(&self) -> Option<u8> {
        (self.facts.class == Class::Call).then_some(self.facts.operand)
    }

    /// The addresses that may come next in the same routine.
    pub fn successors(&self) -> impl Iterator<Item = u8> {
        let jumps = matches!(self.facts.class, Class::Jump | Class::Branch);
        let target = jumps.then_some(self.facts.operand);
        let next = self.goes_on().then_some(self.at.wrapping_add(1));
        target.into_iter().chain(next)
    }

    /// Whether the next word is a successor.
    fn goes_on(&self) -> bool {
        !matches!(self.facts.class, Class::Halt | Class::Return | Class::Jump)
    }

    /// The depth at its successors, or what is wrong here whatever a sheet says of other addresses.
    fn depth_after(&self) -> Result<u8, Hindrance> {
        if self.at == LAST && self.goes_on() {
            return Err(Hindrance::PastTheEnd);
        }
        match self.facts.class {
            Class::JumpRegister => Err(Hindrance::JumpRegister),
            Class::Return if self.entry == 0 => Err(Hindrance::ReturnFromStart),
            Class::Return if self.depth > 0 => Err(Hindrance::ReturnWithBytes),
            Class::Swap if self.depth == 0 => Err(Hindrance::NothingPushed),
            Class::Pop => self.depth.checked_sub(1).ok_or(Hindrance::NothingPushed),
            Class::Push => Ok(self.depth + 1),
            _ => Ok(self.depth),
        }
    }
}
