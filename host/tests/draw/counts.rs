//! What the drawings came to, so that nothing goes untested.

use crate::programs::Program;
use cesca::MOST_ROUTINES;
use reference::{hindrance, Hindrance, Listing};

/// How often each outcome was met on programs of one kind.
#[derive(Debug, Default)]
pub struct Counts {
    /// Programs drawn for.
    pub drawn: u64,
    /// Drawings with two routines or more.
    pub several: u64,
    /// Drawings with as many routines as a list can have.
    pub most: u64,
    /// Drawings with a mark.
    pub marked: u64,
    /// Drawings of a hundred addresses or more.
    pub long: u64,
    /// Programs refused.
    pub refused: u64,
    /// The refused ones by what stands in the way.
    hindrances: [u64; Hindrance::ALL.len()],
}

impl Counts {
    /// Counts what was drawn for a program.
    pub fn add(&mut self, program: &Program, drawing: Option<&Listing>) {
        match drawing {
            Some(drawing) => self.add_drawn(drawing),
            None => {
                let why = hindrance(&program.opcodes, &program.arguments);
                self.hindrances[why.expect("something stands in the way") as usize] += 1;
                self.refused += 1;
            }
        }
    }

    /// Counts a drawing.
    fn add_drawn(&mut self, drawing: &Listing) {
        let words = drawing.sheet_words();
        self.drawn += 1;
        self.several += u64::from(drawing.list.len() > 2);
        self.most += u64::from(drawing.list.len() == 2 * MOST_ROUTINES);
        self.marked += u64::from(words.iter().any(|word| word.settled()));
        self.long += u64::from(words.iter().filter(|word| word.described()).count() >= 100);
    }

    /// How many of the things that can stand in the way were met so often.
    pub fn hindrances(&self, times: u64) -> usize {
        self.hindrances.iter().filter(|count| **count >= times).count()
    }
}
