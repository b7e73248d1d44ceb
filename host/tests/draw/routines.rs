//! Programs of routines that push and pop in balance, call one another without recursion, jump
//! within themselves at equal depths and test V after arithmetic and movs; mostly, that is.

use crate::random::Random;
use cesca::{decode, facts, Class, Effect};

/// The conditional jumps that don't test V.
const BRANCHES: [u8; 8] = [0xB0, 0xB4, 0xB8, 0xBC, 0xC8, 0xCC, 0xD0, 0xD4];

/// Those that do.
const TESTS: [u8; 4] = [0xC0, 0xC4, 0xD8, 0xDC];

/// Words that settle V.
#[rustfmt::skip]
const SETTLING: [[u8; 2]; 8] = [
    [0x0C, 0x02], [0x21, 0x03], // mov R3, R2; mov NONE, R3
    [0x00, 0x11], [0x0A, 0x23], [0x05, 0x30], [0x23, 0x42], // add, sub, addc, subb NONE
    [0x1F, 0x05], [0x25, 0x40], // add Imm8, cmp Imm8
];

/// The words of such a program; its routines may stand in any order behind the first.
pub fn words(random: &mut Random) -> Vec<[u8; 2]> {
    let routines = random.pick(&[1, 1, 2, 3, 4, 6, 10, 20, 40, 64, 66]);
    let longest = 1 + 2 * random.pick(&[10, 40, 100, 180]) / routines as u32;
    let long = random.pick(&[60, 150, 150, 220]);
    let callers: Vec<usize> =
        (0..routines).map(|routine| random.below(routine.max(1) as u32) as usize).collect();
    let (mut words, mut calls) = (Vec::new(), Vec::new());
    let mut entries = vec![0; routines];
    for routine in order(routines, random) {
        entries[routine] = words.len() as u8;
        let mut body =
            Body { random, words: &mut words, long, levels: Vec::new(), depth: 0, v: false };
        let callees = (1..routines).filter(|callee| callers[*callee] == routine);
        calls.extend(body.fill(routine, routines, callees, longest));
    }
    for (at, callee) in calls {
        words[at][1] = entries[callee];
    }
    words
}

/// The order in which the routines stand: 0, and then by number or not.
fn order(routines: usize, random: &mut Random) -> Vec<usize> {
    let mut order: Vec<usize> = (0..routines).collect();
    match random.below(4) {
        0 => {}
        1 => order[1..].reverse(),
        _ => {
            for last in (2..routines).rev() {
                order.swap(last, 1 + random.below(last as u32) as usize);
            }
        }
    }
    order
}

/// A routine's words as they are put behind those of others.
struct Body<'a> {
    random: &'a mut Random,
    words: &'a mut Vec<[u8; 2]>,
    /// The words from which on nothing is put that a routine can do without: the programs should
    /// mostly fit into the banks.
    long: usize,
    /// The routine's addresses with their depths.
    levels: Vec<(usize, u8)>,
    depth: u8,
    /// Whether V is settled as far as the words in this order tell.
    v: bool,
}

impl Body<'_> {
    /// Puts all words of a routine that calls these and may call others of a higher number; yields
    /// the address and the callee of each call.
    fn fill(
        &mut self,
        routine: usize,
        routines: usize,
        callees: impl Iterator<Item = usize>,
        longest: u32,
    ) -> Vec<(usize, usize)> {
        let mut calls = Vec::new();
        for callee in callees {
            self.steps(longest / 2);
            calls.push((self.call(), callee));
        }
        self.steps(longest);
        if self.random.once_in(3) {
            let lowest = if self.random.once_in(20) { 0 } else { routine + 1 };
            let others: Vec<usize> = (lowest..routines).collect();
            if !others.is_empty() {
                calls.push((self.call(), self.random.pick(&others)));
            }
        }
        self.end(routine);
        calls
    }

    /// Puts a word and follows what it does.
    fn put(&mut self, word: [u8; 2]) {
        self.levels.push((self.words.len(), self.depth));
        self.words.push(word);
        let facts = facts(decode(word));
        self.v = match facts.overflow {
            Effect::Settles => true,
            Effect::Leaves => self.v && facts.class != Class::Call,
            Effect::Unsettles => false,
        };
        match facts.class {
            Class::Push => self.depth += 1,
            Class::Pop => self.depth -= 1,
            _ => {}
        }
    }

    /// Puts a call and yields its address.
    fn call(&mut self) -> usize {
        self.put([0xA8, 0x00]);
        self.words.len() - 1
    }

    /// Puts up to so many steps.
    fn steps(&mut self, most: u32) {
        for _ in 0..self.random.below(most + 1) {
            if self.words.len() < self.long {
                self.step();
            }
        }
    }

    /// Puts a word or two.
    fn step(&mut self) {
        let byte = self.random.byte();
        match self.random.below(16) {
            0..2 if self.depth < 200 => self.put([0x5C | byte & 3, byte]),
            2..4 if self.depth > 0 => self.put([0x80 | byte & 15, byte]),
            4 if self.depth > 0 => self.put([0x90 | byte & 15, byte]),
            5 => self.branch_back(),
            6 => self.branch_over(),
            7..9 => {
                let settling = self.random.pick(&SETTLING);
                self.put(settling);
                self.branch_over();
            }
            _ => self.plain(),
        }
    }

    /// Puts a word that only goes on.
    fn plain(&mut self) {
        loop {
            let word = [self.random.byte(), self.random.byte()];
            if facts(decode(word)).class == Class::Next {
                return self.put(word);
            }
        }
    }

    /// The opcode of a conditional jump.
    fn branch(&mut self) -> u8 {
        let tests = self.v && self.random.once_in(2) || self.random.once_in(200);
        self.random.pick(if tests { &TESTS } else { &BRANCHES })
    }

    /// An address of the routine at the depth reached, or the next one.
    fn level(&mut self) -> u8 {
        let level = |(at, depth): &(usize, u8)| (*depth == self.depth).then_some(*at);
        let mut level: Vec<usize> = self.levels.iter().filter_map(level).collect();
        level.push(self.words.len());
        self.random.pick(&level) as u8
    }

    /// Puts a conditional jump back to where the depth was the same.
    fn branch_back(&mut self) {
        let word = [self.branch(), self.level()];
        self.put(word);
    }

    /// Puts a conditional jump over a plain word.
    fn branch_over(&mut self) {
        let opcode = self.branch();
        let v = self.v;
        self.put([opcode, (self.words.len() + 2) as u8]);
        self.plain();
        self.v &= v;
    }

    /// Takes the routine's bytes off the stack and ends it.
    fn end(&mut self, routine: usize) {
        let loops = self.random.once_in(6);
        if loops {
            let word = [0xA0, self.level()];
            return self.put(word);
        }
        if routine == 0 {
            return self.put([0xF8, 0x00]);
        }
        while self.depth > 0 {
            self.put([0x80, 0x00]);
        }
        self.put([0xAC, 0x00]);
    }
}
