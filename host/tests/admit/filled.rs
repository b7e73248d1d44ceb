//! Random listings that are admitted: instructions put where a drawn sheet allows them.

use crate::allowed::{classes, opcode, plain};
use crate::drawn::Drawn;
use crate::random::Random;
use cesca::Class;
use reference::{Listing, SheetWord};

/// The classes that may stand anywhere.
const ENDS: [Class; 4] = [Class::Jump, Class::Jump, Class::Jump, Class::Halt];

/// A random listing that is admitted, its needs as small as can be or not.
pub fn admitted(random: &mut Random) -> Listing {
    let mut filler = Filler { drawn: Drawn::random(random), calls: Vec::new() };
    let mut listing = Listing::blank();
    for at in 0..=255 {
        let word = filler.word(random, at);
        let sheet = filler.drawn.sheet[usize::from(at)];
        listing = listing.with_word(at, word).with_sheet(at, sheet.0);
    }
    if random.once_in(2) {
        filler.tighten();
    }
    let routines = filler.drawn.routines.iter();
    listing.list = routines.flat_map(|routine| [routine.entry, routine.need]).collect();
    listing
}

/// A listing being filled.
struct Filler {
    drawn: Drawn,
    /// Caller, depth and callee of each call.
    calls: Vec<(usize, u8, usize)>,
}

impl Filler {
    /// A word for an address: one that its sheet word and the next one allow, or any.
    fn word(&mut self, random: &mut Random, at: u8) -> [u8; 2] {
        let word = self.drawn.sheet[usize::from(at)];
        if !word.described() {
            return [random.byte(), random.byte()];
        }
        let next = self.next(at, word);
        let callees = self.callees(word);
        let classes = classes(word, next, !callees.is_empty());
        let ends = classes.is_empty() || random.once_in(16);
        let class = random.pick(if ends { &ENDS } else { &classes });
        if class == Class::Next {
            return plain(random, word, next.expect("a plain word goes on"));
        }
        let argument = match class {
            Class::Jump | Class::Branch => self.target(random, at, word),
            Class::Call => self.call(word, random.pick(&callees)),
            _ => random.byte(),
        };
        [opcode(random, class, word.settled()), argument]
    }

    /// The word after an address, if it is described in the same routine.
    fn next(&self, at: u8, word: SheetWord) -> Option<SheetWord> {
        let next = *self.drawn.sheet.get(usize::from(at) + 1)?;
        (next.described() && next.routine() == word.routine()).then_some(next)
    }

    /// The routines that may be called at this word.
    fn callees(&self, word: SheetWord) -> Vec<usize> {
        let routines = &self.drawn.routines;
        let room = i32::from(routines[usize::from(word.routine())].need) - i32::from(word.depth());
        let low = |number: &usize| i32::from(routines[*number].need) < room;
        (0..routines.len()).filter(low).collect()
    }

    /// The entry of a routine, whose call is noted.
    fn call(&mut self, word: SheetWord, callee: usize) -> u8 {
        self.calls.push((word.routine().into(), word.depth(), callee));
        self.drawn.routines[callee].entry
    }

    /// An address to jump to, another one if there is one.
    fn target(&self, random: &mut Random, at: u8, word: SheetWord) -> u8 {
        let fits = |to: &u8| {
            let target = self.drawn.sheet[usize::from(*to)];
            let level = target.routine() == word.routine() && target.depth() == word.depth();
            let keeps = word.settled() || !target.settled();
            target.described() && level && keeps && *to != at
        };
        let targets: Vec<u8> = (0..=255).filter(fits).collect();
        if targets.is_empty() {
            at
        } else {
            random.pick(&targets)
        }
    }

    /// Makes each need the least that the routine's depths and calls leave.
    fn tighten(&mut self) {
        let Drawn { sheet, routines } = &mut self.drawn;
        let mut order: Vec<usize> = (0..routines.len()).collect();
        // A callee's need is below its caller's, so it comes first.
        order.sort_by_key(|number| routines[*number].need);
        for number in order {
            let own = |word: &&SheetWord| word.described() && usize::from(word.routine()) == number;
            let depths = sheet.iter().filter(own).map(|word| word.depth());
            let calls = self.calls.iter().filter(|(caller, ..)| *caller == number);
            let needs = calls.map(|(_, depth, callee)| depth + 1 + routines[*callee].need);
            routines[number].need = depths.chain(needs).max().unwrap_or(0);
        }
    }
}
