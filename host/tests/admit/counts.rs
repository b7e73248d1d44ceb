//! What the answers came to, so that nothing goes untested.

use crate::damage::Damage;
use cesca::Refusal;

/// How often a kind of answer must be met.
const ENOUGH: u64 = 100;

/// Answers by number, from 0 for an admission to 16.
type Numbers = [u64; 17];

/// How often each answer was met.
#[derive(Debug)]
pub struct Counts {
    /// On all listings.
    all: Numbers,
    /// On admitted listings with one thing changed, by what it was.
    damaged: [Numbers; Damage::ALL.len()],
    /// On listings with many things wrong.
    spoiled: Numbers,
}

impl Counts {
    /// The counts before the first listing.
    pub fn new() -> Counts {
        let none = [0; 17];
        Counts { all: none, damaged: [none; Damage::ALL.len()], spoiled: none }
    }

    /// Counts an answer on a listing with this single damage.
    pub fn damaged(&mut self, damage: Damage, answer: &Result<(), Refusal>) {
        self.damaged[damage as usize][number(answer)] += 1;
        self.plain(answer);
    }

    /// Counts an answer on a listing with many things wrong.
    pub fn spoiled(&mut self, answer: &Result<(), Refusal>) {
        self.spoiled[number(answer)] += 1;
        self.plain(answer);
    }

    /// Counts an answer on any other listing.
    pub fn plain(&mut self, answer: &Result<(), Refusal>) {
        self.all[number(answer)] += 1;
    }

    /// Checks that every ground was met often enough, and every part of 16.
    pub fn check(&self) {
        let total: u64 = self.all.iter().sum();
        assert!(total >= 200_000, "{total} listings");
        assert!(self.all[0] >= total / 8, "{} of {total} admitted", self.all[0]);
        for (number, count) in self.all.iter().enumerate() {
            assert!(*count >= ENOUGH, "{number} was answered {count} times");
        }
        // All else was right before, so the changed field is the part of 16 that is broken.
        for part in [Damage::Described, Damage::Routine, Damage::Depth, Damage::Settled] {
            let count = self.damaged[part as usize][16];
            assert!(count >= ENOUGH, "16 was answered {count} times on {part:?}");
        }
        let met = self.spoiled.iter().filter(|count| **count >= ENOUGH).count();
        assert!(met >= 12, "answers on many things wrong: {:?}", self.spoiled);
    }
}

/// The number of an answer.
fn number(answer: &Result<(), Refusal>) -> usize {
    answer.as_ref().map_or_else(|refusal| usize::from(refusal.number()), |()| 0)
}
