//! Random lists of calls, refused ones among them.

use crate::memory::{Bank, Guarded, Memory, BANKS};
use crate::random::Random;
use cesca::{Flags, Overflow, State, BANK, MOST_STEPS};
use reference::Listing;

/// A call of a list.
#[derive(Clone, Debug)]
pub struct Call {
    pub keys: Vec<u8>,
    pub roll: Vec<u16>,
    pub budget: u32,
    /// The start state, unless the call goes on from the state reached.
    pub restart: Option<State>,
    /// A buffer lent in a bank's place.
    pub wrong: Option<(Bank, Vec<u8>)>,
}

impl Call {
    /// A call that goes on or starts anew; one in eight is to be refused.
    pub fn random(random: &mut Random) -> Call {
        let (keys, words) = (random.pick(&[0, 2, 6]), random.pick(&[0, 3, 40]));
        let budget = random.pick(&[2, 40, 40, 300]);
        let wrong = random.once_in(16).then(|| {
            let length = random.pick(&[0, 1, 255, 257, 512]);
            (random.pick(&BANKS), random.bytes(length))
        });
        let restart = random.once_in(4).then(|| start(random));
        Call {
            keys: random.bytes(keys),
            roll: (0..words).map(|_| random.number() as u16).collect(),
            budget: if random.once_in(16) { MOST_STEPS + 1 } else { random.below(budget) },
            restart,
            wrong,
        }
    }
}

/// A start state: any registers, Z, C and S.
pub fn start(random: &mut Random) -> State {
    let [z, c, s] = [(); 3].map(|()| random.once_in(2));
    let flags = Flags { z, c, v: Overflow::Unsettled, s };
    State { regs: [(); 4].map(|()| random.byte()), flags, ..State::start() }
}

/// The banks at a list's beginning, with any data and stack bytes.
pub fn banks(random: &mut Random, listing: &Listing) -> Memory {
    let words = listing.opcodes.iter().zip(&listing.arguments);
    let words: Vec<[u8; 2]> = words.map(|(opcode, argument)| [*opcode, *argument]).collect();
    let mut memory = Memory::with_words(&words);
    memory.ram = Guarded::new(random.bytes(BANK));
    memory.stack = Guarded::new(random.bytes(BANK));
    memory
}
