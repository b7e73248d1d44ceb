//! Random calls of a run.

use crate::memory::{Guarded, Memory};
use crate::random::Random;
use cesca::{Flags, Overflow, State, BANK};
use reference::Form;
use std::sync::LazyLock;

/// A call: what is lent, the budget and the state to start from.
#[derive(Clone, Debug)]
pub struct Case {
    pub memory: Memory,
    pub budget: u32,
    pub start: State,
}

/// For each form, its fixed bits that are 1, and its other bits.
static FORMS: LazyLock<Vec<(u16, u16)>> = LazyLock::new(|| patterns(|_| true));

/// The same for the forms that never stop a run.
static ENDLESS: LazyLock<Vec<(u16, u16)>> = LazyLock::new(|| {
    patterns(|form| form != Form::Hlt && !form.tests_overflow() && !form.writes_roll())
});

/// Fixed and other bits of the forms that are wanted.
fn patterns(wanted: impl Fn(Form) -> bool) -> Vec<(u16, u16)> {
    let forms = Form::ALL.into_iter().filter(|form| wanted(*form));
    forms.map(|form| (form.mask("1"), !form.mask("01"))).collect()
}

impl Case {
    /// A call; one in eight is spoiled, often in many ways.
    pub fn random(random: &mut Random) -> Case {
        let mut case = Case::good(random);
        if random.once_in(8) {
            case.spoil(random);
        }
        case
    }

    /// A call that isn't refused.
    pub fn good(random: &mut Random) -> Case {
        let budget = random.pick(&[4, 4, 40, 40, 40, 40, 40, 300, 300, 3001]);
        let (opcodes, arguments) = program(random);
        let keys = random.below(9) as usize;
        let words = random.below(6);
        let memory = Memory {
            opcodes: Guarded::new(opcodes),
            arguments: Guarded::new(arguments),
            keys: Guarded::new(random.bytes(keys)),
            ram: Guarded::new(random.bytes(BANK)),
            stack: Guarded::new(random.bytes(BANK)),
            roll: Guarded::new((0..words).map(|_| random.number() as u16)),
        };
        Case { memory, budget: random.below(budget), start: state(random, keys) }
    }

    /// Makes some of the lengths, the position and the budget wrong.
    fn spoil(&mut self, random: &mut Random) {
        let Memory { opcodes, arguments, keys, ram, stack, .. } = &mut self.memory;
        if random.once_in(2) {
            for bank in [opcodes, arguments, ram, stack] {
                if random.once_in(3) {
                    let length = random.pick(&[0, 1, 128, 255, 257, 512]);
                    *bank = Guarded::new(random.bytes(length));
                }
            }
        }
        if random.once_in(2) {
            let past = random.pick(&[1, 2, 255, 256, 1 << 32, usize::MAX / 2]);
            self.start.position = keys.inner().len() + past;
        }
        if random.once_in(2) {
            self.budget = random.pick(&[1_000_001, 1_000_002, 1 << 24, 1 << 31, u32::MAX]);
        }
    }
}

/// A program: all forms alike often, those that never stop a run, or any bytes.
fn program(random: &mut Random) -> (Vec<u8>, Vec<u8>) {
    let patterns = match random.below(4) {
        0 | 1 => &*FORMS,
        2 => &*ENDLESS,
        _ => return (random.bytes(BANK), random.bytes(BANK)),
    };
    let word = |_| {
        let (fixed, free) = random.pick(patterns);
        let [opcode, argument] = (fixed | random.number() as u16 & free).to_be_bytes();
        (opcode, argument)
    };
    (0..BANK).map(word).unzip()
}

/// A state with a position among so many keys; PC and SP are often at their edges.
fn state(random: &mut Random, keys: usize) -> State {
    let edge = |random: &mut Random| match random.below(16) {
        0 => 0,
        1 => 255,
        _ => random.byte(),
    };
    State {
        regs: [(); 4].map(|()| random.byte()),
        pc: edge(random),
        sp: edge(random),
        out: random.byte(),
        flags: Flags {
            z: random.once_in(2),
            c: random.once_in(2),
            v: random.pick(&[Overflow::Clear, Overflow::Set, Overflow::Unsettled]),
            s: random.once_in(2),
        },
        halted: random.once_in(32),
        position: random.below(keys as u32 + 1) as usize,
    }
}
