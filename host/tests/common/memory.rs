//! Everything that a run is lent, each buffer inside guards.

use cesca::{Lent, BANK};
use std::fmt::Display;

/// The elements kept on either side of a lent buffer.
const GUARD: usize = 8;

/// A buffer inside guards.
#[derive(Clone, Debug, PartialEq, Eq)]
pub struct Guarded<T>(Vec<T>);

impl<T: Copy + Display + From<u8> + PartialEq> Guarded<T> {
    /// A guarded buffer of these elements.
    pub fn new(content: impl IntoIterator<Item = T>) -> Guarded<T> {
        let guard = [T::from(0xA5); GUARD];
        Guarded(guard.into_iter().chain(content).chain(guard).collect())
    }

    /// The buffer without its guards.
    pub fn inner(&self) -> &[T] {
        &self.0[GUARD..self.0.len() - GUARD]
    }

    /// The same for writing.
    pub fn inner_mut(&mut self) -> &mut [T] {
        let end = self.0.len() - GUARD;
        &mut self.0[GUARD..end]
    }

    /// The places where this buffer or its guards aren't as wanted, the buffer's first being 0.
    pub fn differences(&self, wanted: &Guarded<T>) -> Vec<String> {
        let places = (0isize..).zip(self.0.iter().zip(&wanted.0));
        let different = places.filter(|(_, (found, wanted))| found != wanted);
        let differences = different.map(|(at, (found, wanted))| {
            format!("{found} at {}, wanted {wanted}", at - GUARD as isize)
        });
        differences.collect()
    }
}

/// A bank among the buffers of a run.
pub type Bank = fn(&mut Memory) -> &mut Guarded<u8>;

/// The four banks.
pub const BANKS: [Bank; 4] = [
    |memory| &mut memory.opcodes,
    |memory| &mut memory.arguments,
    |memory| &mut memory.ram,
    |memory| &mut memory.stack,
];

/// The buffers of a run.
#[derive(Clone, Debug, PartialEq, Eq)]
pub struct Memory {
    pub opcodes: Guarded<u8>,
    pub arguments: Guarded<u8>,
    pub keys: Guarded<u8>,
    pub ram: Guarded<u8>,
    pub stack: Guarded<u8>,
    pub roll: Guarded<u16>,
}

impl Memory {
    /// Banks of 0 but for these words from address 0, no keys and a roll of no words.
    pub fn with_words(words: &[[u8; 2]]) -> Memory {
        let mut memory = Memory {
            opcodes: Guarded::new([0; BANK]),
            arguments: Guarded::new([0; BANK]),
            keys: Guarded::new([]),
            ram: Guarded::new([0; BANK]),
            stack: Guarded::new([0; BANK]),
            roll: Guarded::new([]),
        };
        for (at, word) in (0..=255).zip(words) {
            memory.put(at, *word);
        }
        memory
    }

    /// Puts a word at an address.
    pub fn put(&mut self, at: u8, [opcode, argument]: [u8; 2]) {
        self.opcodes.inner_mut()[usize::from(at)] = opcode;
        self.arguments.inner_mut()[usize::from(at)] = argument;
    }

    /// All of it, lent to a run.
    pub fn lend(&mut self) -> Lent<'_> {
        Lent {
            opcodes: self.opcodes.inner(),
            arguments: self.arguments.inner(),
            keys: self.keys.inner(),
            ram: self.ram.inner_mut(),
            stack: self.stack.inner_mut(),
            roll: self.roll.inner_mut(),
        }
    }

    /// The places, guards included, where these buffers aren't as wanted.
    pub fn differences(&self, wanted: &Memory) -> String {
        let buffers = [
            ("opcodes", self.opcodes.differences(&wanted.opcodes)),
            ("arguments", self.arguments.differences(&wanted.arguments)),
            ("keys", self.keys.differences(&wanted.keys)),
            ("ram", self.ram.differences(&wanted.ram)),
            ("stack", self.stack.differences(&wanted.stack)),
            ("roll", self.roll.differences(&wanted.roll)),
        ];
        let different = buffers.into_iter().filter(|(_, places)| !places.is_empty());
        different.map(|(name, places)| format!("{name}: {}\n", places.join(", "))).collect()
    }
}
