//! What successors and calls reach from address 0, each address in one routine at one depth.

use super::routine;
use crate::instruction::Instruction;
use crate::text::bytes;
use cesca_types::{Class, BANK};
use std::fmt::{self, Display, Formatter};

/// Where an address stands.
#[derive(Clone, Copy, PartialEq, Eq)]
pub struct Standing {
    /// The entry of its routine.
    pub routine: u8,
    /// The bytes above the routine's return address.
    pub depth: i16,
}

/// An instruction that is reached, and where it stands.
pub struct Place {
    pub instruction: Instruction,
    pub standing: Standing,
}

/// The places that are reached, the nearest to address 0 first, or the first that no sheet can put
/// right.
pub fn reach(instruction: impl Fn(u8) -> Instruction) -> Result<Vec<Place>, String> {
    let mut standings = [None; BANK];
    let mut places = Vec::new();
    let start = Standing { routine: 0, depth: 0 };
    standings[0] = Some(start);
    places.push(Place { instruction: instruction(0), standing: start });
    let mut done = 0;
    while let Some(place) = places.get(done) {
        if let Some(flaw) = place.flaw() {
            return Err(flaw);
        }
        for (at, due) in place.demands() {
            match standings[usize::from(at)] {
                None => {
                    standings[usize::from(at)] = Some(due);
                    places.push(Place { instruction: instruction(at), standing: due });
                }
                Some(first) if first != due => return Err(places[done].clash(at, first, due)),
                Some(_) => (),
            }
        }
        done += 1;
    }
    Ok(places)
}

impl Place {
    /// Where other addresses have to stand because of this one: its successors, and what it calls.
    fn demands(&self) -> Vec<(u8, Standing)> {
        let Standing { routine, depth } = self.standing;
        let after = Standing { routine, depth: self.instruction.depth_after(depth) };
        let called = self.instruction.called();
        let called = called.map(|entry| (entry, Standing { routine: entry, depth: 0 }));
        let successors = self.instruction.successors().map(|at| (at, after));
        called.into_iter().chain(successors).collect()
    }

    /// What is wrong with the instruction where it stands.
    fn flaw(&self) -> Option<String> {
        let Standing { routine: entry, depth } = self.standing;
        let Instruction { at, fields, facts } = self.instruction;
        let routine = routine(entry);
        match facts.class {
            Class::JumpRegister => Some(format!("jmp R{} at {at} could go anywhere", fields.a)),
            Class::Pop | Class::Swap if depth == 0 => {
                let own = if entry == 0 { "" } else { " of its own" };
                Some(format!("{self}, where {routine} has nothing{own} on the stack"))
            }
            Class::Return if entry == 0 => Some(format!("{self}, in routine 0")),
            Class::Return if depth > 0 => {
                let left = bytes(depth.unsigned_abs().into());
                Some(format!("{self}, where {routine} still has {left} on the stack"))
            }
            _ => self.instruction.past_the_end(),
        }
    }

    /// What is wrong with an address that stands otherwise than this place asks.
    fn clash(&self, at: u8, first: Standing, due: Standing) -> String {
        let [one, other] = if first.routine == due.routine {
            [first, due].map(|standing| format!("at depth {}", standing.depth))
        } else {
            [first, due].map(|standing| format!("in {}", routine(standing.routine)))
        };
        format!("address {at} is reached {one} and, by {self}, {other}")
    }
}

/// `pop at 5`.
impl Display for Place {
    fn fmt(&self, out: &mut Formatter<'_>) -> fmt::Result {
        write!(out, "{} at {}", self.instruction.mnemonic(), self.instruction.at)
    }
}
