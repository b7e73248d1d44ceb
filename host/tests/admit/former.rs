//! Random listings under the rules as they were before request 4, when V was unsettled after a
//! register mov: what was admitted is admitted still.

use crate::answer::answer;
use crate::damage::Damage;
use crate::filled::admitted;
use crate::formerly::admit_formerly;
use crate::random::each_case;
use cesca::Refusal;
use reference::{Form, Function, Instruction, Listing};

/// The admitted listings drawn, each damaged in every way too.
const CASES: u64 = 5_000;

/// How often each thing must be met.
const ENOUGH: u32 = 500;

/// Whether function 0000 stands at an address, with a destination or without.
fn moves(listing: &Listing, at: u8) -> bool {
    let at = usize::from(at);
    let instruction = Instruction::decode([listing.opcodes[at], listing.arguments[at]]);
    let computes = matches!(instruction.form, Form::Alu | Form::AluNone);
    computes && instruction.function() == Function::Mov
}

/// How the answers compare.
#[derive(Debug, Default)]
struct Met {
    /// Listings that were admitted, and are.
    kept: u32,
    /// Listings that were refused, and are admitted.
    gained: u32,
    /// Listings that are refused by a later ground than they were.
    later: u32,
    /// Listings that are refused as they were.
    refused: u32,
}

impl Met {
    /// Counts a listing, once its two answers are found to be in order.
    fn add(&mut self, listing: &Listing) {
        let (then, now) = (admit_formerly(listing), answer(listing));
        match (&then, &now) {
            (Ok(()), _) => {
                assert_eq!(now, Ok(()), "{listing:?}");
                self.kept += 1;
            }
            (Err(_), _) if then == now => self.refused += 1,
            (Err(then), now) => self.add_changed(listing, then, now),
        }
    }

    /// Counts a listing with another answer: it was refused at a register mov, by 16, and nothing
    /// else up to that address is wrong.
    fn add_changed(&mut self, listing: &Listing, then: &Refusal, now: &Result<(), Refusal>) {
        let at = then.place().expect("an address");
        assert_eq!(then.number(), 16, "{listing:?}");
        assert!(moves(listing, at), "{listing:?}");
        match now {
            Ok(()) => self.gained += 1,
            Err(now) => {
                assert!(now.number() >= 8 && now.place() > Some(at), "{now} in {listing:?}");
                self.later += 1;
            }
        }
    }
}

#[test]
fn what_was_admitted_is_admitted() {
    let mut met = Met::default();
    each_case(CASES, |random| {
        let listing = admitted(random);
        met.add(&listing);
        for damage in Damage::ALL {
            let mut damaged = listing.clone();
            damage.apply(&mut damaged, random);
            met.add(&damaged);
        }
    });
    let Met { kept, gained, later, refused } = met;
    assert!([kept, gained, later, refused].iter().all(|count| *count >= ENOUGH), "{met:?}");
}
