//! Random calls of a busy run.

use crate::buffers::Buffers;
use crate::case::Case;
use crate::memory::Guarded;
use crate::random::Random;
use cesca::{BANK, MOST_STEPS, PAGE};

/// Opcodes that go on to the next word and stop no run, of all lengths of text.
const ONWARD: [u8; 10] = [0x00, 0x10, 0x20, 0x24, 0x2C, 0x30, 0x54, 0x5C, 0x90, 0xFC];

/// How a random call is made.
#[derive(Clone, Copy, Debug, PartialEq, Eq)]
pub enum Kind {
    /// As runs are tested, some of them spoiled.
    Any,
    /// A program that goes round in a few words.
    Round,
    /// A program that goes through all 256 addresses, again and again.
    Whole,
    /// One of these programs, not spoiled, with any budget that isn't refused.
    Long,
}

impl Kind {
    /// A random call of the kind: what is lent, and the case with its budget and state.
    pub fn call(self, random: &mut Random) -> (Buffers, Case) {
        let mut case = match self {
            Kind::Any => Case::random(random),
            Kind::Round | Kind::Whole | Kind::Long => Case::good(random),
        };
        match self {
            Kind::Any => case.budget = few(case.budget, random),
            Kind::Round => round(&mut case, random),
            Kind::Whole => whole(&mut case, random),
            Kind::Long => long(&mut case, random),
        }
        let spoiled = self == Kind::Any && random.once_in(8);
        let page = random.pick(&[PAGE, PAGE, PAGE + 1, PAGE + 35, 9_000]);
        let lengths = if spoiled { spoiled_lengths(random) } else { [BANK, page] };
        let counters = (0..lengths[0]).map(|_| random.number() as u32);
        let counters = Guarded::new(counters.collect::<Vec<u32>>());
        let page = Guarded::new(random.bytes(lengths[1]));
        (Buffers { memory: case.memory.clone(), counters, page }, case)
    }
}

/// A budget that is often 0 or 1.
fn few(budget: u32, random: &mut Random) -> u32 {
    match random.below(16) {
        0 => 0,
        1 => 1,
        _ => budget,
    }
}

/// Lengths of counters and page of which one at least is wrong.
fn spoiled_lengths(random: &mut Random) -> [usize; 2] {
    let counters = random.pick(&[0, 1, 255, 257, 512]);
    let page = random.pick(&[0, 35, 8_925, 8_959]);
    random.pick(&[[counters, PAGE], [counters, 9_000], [BANK, page], [counters, page]])
}

/// Makes a case go round in some words, now and then over the end of the bank.
fn round(case: &mut Case, random: &mut Random) {
    let any = random.byte();
    let first: u8 = random.pick(&[0, 0, 7, 250, any]);
    let length = random.pick(&[0, 1, 2, 5, 20]);
    for at in 0..length {
        case.memory.put(first.wrapping_add(at), [random.pick(&ONWARD), random.byte()]);
    }
    let back = first.wrapping_add(random.below(u32::from(length) + 1) as u8);
    case.memory.put(first.wrapping_add(length), [0xA0, back]);
    case.start.pc = first;
    case.start.halted = false;
    case.budget = random.below(400);
}

/// Makes a case go on from each address to the next.
fn whole(case: &mut Case, random: &mut Random) {
    for at in 0..=255 {
        case.memory.put(at, [random.pick(&ONWARD), random.byte()]);
    }
    case.start.halted = false;
    case.budget = random.pick(&[255, 256, 257, 300, 511, 512, 1_000]);
}

/// Gives a case, as it is or made to go on, a budget from 0 to the most.
fn long(case: &mut Case, random: &mut Random) {
    match random.below(4) {
        0 => round(case, random),
        1 => whole(case, random),
        _ => (),
    }
    case.budget = random.below(MOST_STEPS + 1);
}
