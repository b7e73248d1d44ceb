//! The two banks that an assembler is lent, inside guards.

use crate::memory::Guarded;
use crate::sides::{Answer, Assembler};
use cesca::BANK;

/// What stands in a bank that is still to be filled.
const OLD: u8 = 0x55;

/// Both banks, of any length.
#[derive(Clone, Debug, PartialEq, Eq)]
pub struct Banks {
    opcodes: Guarded<u8>,
    arguments: Guarded<u8>,
}

impl Banks {
    /// Banks with these bytes.
    pub fn new(opcodes: &[u8], arguments: &[u8]) -> Banks {
        let guarded = |bytes: &[u8]| Guarded::new(bytes.iter().copied());
        Banks { opcodes: guarded(opcodes), arguments: guarded(arguments) }
    }

    /// Banks of these lengths, still to be filled.
    pub fn old(opcodes: usize, arguments: usize) -> Banks {
        Banks::new(&vec![OLD; opcodes], &vec![OLD; arguments])
    }

    /// Banks with these words from address 0 and 00 behind them.
    pub fn filled(words: &[[u8; 2]]) -> Banks {
        let (mut opcodes, mut arguments) = ([0; BANK], [0; BANK]);
        for (at, [opcode, argument]) in words.iter().enumerate() {
            (opcodes[at], arguments[at]) = (*opcode, *argument);
        }
        Banks::new(&opcodes, &arguments)
    }

    /// What an assembler answers on a text if it is lent these banks, and what they then hold.
    pub fn lent(&self, assembler: Assembler, text: &[u8]) -> (Answer, Banks) {
        let mut banks = self.clone();
        let answer = assembler(text, banks.opcodes.inner_mut(), banks.arguments.inner_mut());
        (answer, banks)
    }

    /// The places, guards included, where these banks aren't as wanted.
    pub fn differences(&self, wanted: &Banks) -> Vec<String> {
        let opcodes = self.opcodes.differences(&wanted.opcodes);
        let opcodes = opcodes.into_iter().map(|place| format!("opcode {place}"));
        let arguments = self.arguments.differences(&wanted.arguments);
        opcodes.chain(arguments.into_iter().map(|place| format!("argument {place}"))).collect()
    }
}
