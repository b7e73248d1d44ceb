//! What a run is lent, once nothing refuses it.

use cesca_types::{Lent, Refusal, BANK, MOST_STEPS};

/// What a run is lent, the banks with their length.
pub struct Memory<'a> {
    pub opcodes: &'a [u8; BANK],
    pub arguments: &'a [u8; BANK],
    pub keys: &'a [u8],
    pub ram: &'a mut [u8; BANK],
    pub stack: &'a mut [u8; BANK],
    pub roll: &'a mut [u16],
}

impl<'a> Memory<'a> {
    /// The memory of a run of at most `budget` steps from a key position, or why it is refused.
    pub fn checked(lent: Lent<'a>, budget: u32, position: usize) -> Result<Self, Refusal> {
        let memory = Memory::with_banks(lent).ok_or_else(|| Refusal::of_call(17))?;
        if position > memory.keys.len() {
            Err(Refusal::of_call(18))
        } else if budget > MOST_STEPS {
            Err(Refusal::of_call(19))
        } else {
            Ok(memory)
        }
    }

    /// The memory, if its banks have their length.
    fn with_banks(lent: Lent<'a>) -> Option<Self> {
        Some(Memory {
            opcodes: lent.opcodes.try_into().ok()?,
            arguments: lent.arguments.try_into().ok()?,
            keys: lent.keys,
            ram: lent.ram.try_into().ok()?,
            stack: lent.stack.try_into().ok()?,
            roll: lent.roll,
        })
    }
}
