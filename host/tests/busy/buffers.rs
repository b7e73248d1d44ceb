//! Everything that a busy run is lent, each buffer inside guards.

use crate::memory::{Guarded, Memory};
use crate::runners::{Answer, Runner};
use cesca::{Records, State, BANK, PAGE};

/// What stands in counters that are still to be set.
const OLD_COUNT: u32 = 0xDEAD_BEEF;

/// What stands in a page that is still to be written, and never in a line.
const OLD_BYTE: u8 = 0x07;

/// The buffers of a run, the counters and the page.
#[derive(Clone, Debug, PartialEq, Eq)]
pub struct Buffers {
    pub memory: Memory,
    pub counters: Guarded<u32>,
    pub page: Guarded<u8>,
}

impl Buffers {
    /// The buffers of a run with counters and a page of these lengths, still to be written to.
    pub fn with(memory: Memory, counters: usize, page: usize) -> Buffers {
        let counters = Guarded::new(vec![OLD_COUNT; counters]);
        Buffers { memory, counters, page: Guarded::new(vec![OLD_BYTE; page]) }
    }

    /// The same with as many counters as there must be, and the shortest page.
    pub fn old(memory: Memory) -> Buffers {
        Buffers::with(memory, BANK, PAGE)
    }

    /// What a busy run answers if it is lent these buffers, and what they then hold.
    pub fn lent(&self, runner: Runner, budget: u32, start: State) -> (Answer, Buffers) {
        let mut after = self.clone();
        let Buffers { memory, counters, page } = &mut after;
        let records = Records { counters: counters.inner_mut(), page: page.inner_mut() };
        let answer = runner(memory.lend(), records, budget, start);
        (answer.map_err(|refusal| refusal.number()), after)
    }

    /// These buffers with all counters 0 but for some addresses', and with a text at the beginning
    /// of the page.
    pub fn recorded(mut self, counts: &[(u8, u32)], text: &str) -> Buffers {
        self.counters.inner_mut().fill(0);
        for (at, count) in counts {
            self.counters.inner_mut()[usize::from(*at)] = *count;
        }
        self.page.inner_mut()[..text.len()].copy_from_slice(text.as_bytes());
        self
    }

    /// The places, guards included, where these buffers aren't as wanted.
    pub fn differences(&self, wanted: &Buffers) -> String {
        let memory = self.memory.differences(&wanted.memory);
        let records = [
            ("counters", self.counters.differences(&wanted.counters)),
            ("page", self.page.differences(&wanted.page)),
        ];
        let different = records.into_iter().filter(|(_, places)| !places.is_empty());
        let records = different.map(|(name, places)| format!("{name}: {}\n", places.join(", ")));
        memory + &records.collect::<String>()
    }
}
