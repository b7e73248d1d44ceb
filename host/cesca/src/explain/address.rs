//! One described address and its instruction: 8 to 15.

use crate::instruction::Instruction;
use crate::text::bytes;
use crate::{Listing, SheetWord};
use cesca_types::Class;

/// A described address with all that the rules ask about it.
pub struct Address<'a> {
    pub listing: &'a Listing,
    pub word: SheetWord,
    /// The need of the word's routine.
    need: u8,
    pub instruction: Instruction,
}

impl<'a> Address<'a> {
    /// The address, if it is described and its routine is in the list.
    pub fn described(listing: &'a Listing, at: u8) -> Option<Address<'a>> {
        let word = listing.sheet_word(at);
        let need = listing.routines().get(usize::from(word.routine))?.need;
        let instruction = Instruction::new(at, listing.instruction(at));
        word.described.then_some(Address { listing, word, need, instruction })
    }

    /// What is wrong here, if it is what the number stands for.
    pub fn words(&self, number: u8) -> Option<String> {
        match number {
            8 => self.depth(),
            9 => self.jump_by_register(),
            10 => self.test(),
            11 => self.pop_or_swap(),
            12 => self.ret(),
            13 => self.instruction.past_the_end(),
            14 => self.call_of_none(),
            15 => self.call_over_need(),
            16 => self.successor(),
            _ => None,
        }
    }

    /// 8: a depth over the need.
    fn depth(&self) -> Option<String> {
        let SheetWord { routine, depth, .. } = self.word;
        let need = self.need;
        (depth > need).then(|| format!("depth {depth} is over routine {routine}'s need of {need}"))
    }

    /// 9: a jump to a register.
    fn jump_by_register(&self) -> Option<String> {
        let jumps = self.instruction.facts.class == Class::JumpRegister;
        jumps.then(|| format!("jmp R{} could go anywhere", self.instruction.fields.a))
    }

    /// 10: a test of V without a mark.
    fn test(&self) -> Option<String> {
        let name = self.instruction.mnemonic();
        (self.instruction.facts.tests && !self.word.settled)
            .then(|| format!("{name} tests V, which the sheet doesn't mark as settled"))
    }

    /// 11: pop or swap of what isn't the routine's own.
    fn pop_or_swap(&self) -> Option<String> {
        let reach = match self.instruction.facts.class {
            Class::Pop => "take",
            Class::Swap => "exchange",
            _ => return None,
        };
        let name = self.instruction.mnemonic();
        (self.word.depth == 0).then(|| match self.word.routine {
            0 => format!("{name} at depth 0 of routine 0, where nothing is on the stack"),
            _ => format!("{name} at depth 0 would {reach} the return address"),
        })
    }

    /// 12: ret to nowhere.
    fn ret(&self) -> Option<String> {
        let SheetWord { routine, depth, .. } = self.word;
        match (self.instruction.facts.class, routine, depth) {
            (Class::Return, 0, _) => Some("ret in routine 0".to_string()),
            (Class::Return, _, 1..) => {
                let left = bytes(depth.into());
                Some(format!("ret with {left} of routine {routine} still on the stack"))
            }
            _ => None,
        }
    }

    /// 14: a call of an address that is no routine's.
    fn call_of_none(&self) -> Option<String> {
        let target = self.instruction.called()?;
        let none = self.need_of(target).is_none();
        none.then(|| format!("call {target}, where no routine begins"))
    }

    /// 15: a call for which too little is left.
    fn call_over_need(&self) -> Option<String> {
        let wanted = 1 + usize::from(self.need_of(self.instruction.called()?)?);
        let (left, routine) = (self.need.checked_sub(self.word.depth)?, self.word.routine);
        let wanting = bytes(wanted);
        (wanted > usize::from(left))
            .then(|| format!("the call needs {wanting} where routine {routine} has {left} left"))
    }

    /// The need of the routine that begins at an address.
    fn need_of(&self, entry: u8) -> Option<u8> {
        let mut routines = self.listing.routines().iter();
        routines.find(|routine| routine.entry == entry).map(|routine| routine.need)
    }
}
