//! Whose the bytes on the stack are, followed step by step: the tally of the scope paper.

use cesca::{facts, Class, Listing, State};
use std::fmt::{self, Display, Formatter};

/// A byte on the stack.
#[derive(Clone, Copy, Debug, PartialEq, Eq)]
pub enum Entry {
    /// A byte that was pushed, and the routine that the sheet names for the push.
    Pushed {
        /// The byte.
        byte: u8,
        /// The routine.
        routine: u8,
    },
    /// The address that a call returns to.
    Return {
        /// The address.
        to: u8,
    },
}

/// The bytes on the stack, the top last.
#[derive(Default)]
pub struct Owners {
    entries: Vec<Entry>,
}

impl Owners {
    /// The bytes from the top.
    pub fn entries(&self) -> impl Iterator<Item = &Entry> {
        self.entries.iter().rev()
    }

    /// Follows the step that is made from this state.
    pub fn step(&mut self, listing: &Listing, before: &State) {
        let fields = listing.instruction(before.pc);
        let byte = before.regs[usize::from(fields.a)];
        match facts(fields).class {
            Class::Push => {
                let routine = listing.sheet_word(before.pc).routine;
                self.entries.push(Entry::Pushed { byte, routine });
            }
            Class::Call => self.entries.push(Entry::Return { to: before.pc.wrapping_add(1) }),
            Class::Pop | Class::Return => {
                self.entries.pop();
            }
            Class::Swap => {
                if let Some(Entry::Pushed { byte: top, .. } | Entry::Return { to: top }) =
                    self.entries.last_mut()
                {
                    *top = byte;
                }
            }
            Class::Next | Class::Jump | Class::Branch | Class::JumpRegister | Class::Halt => {}
        }
    }
}

impl Display for Entry {
    fn fmt(&self, out: &mut Formatter<'_>) -> fmt::Result {
        match self {
            Entry::Pushed { byte, routine } => write!(out, "{byte} of routine {routine}"),
            Entry::Return { to } => write!(out, "return to {to}"),
        }
    }
}

#[cfg(test)]
mod tests {
    use super::*;
    use cesca::{Board, Stop};

    /// Two routines; the second pushes, swaps and pops, and is called at depth 1 and at depth 0.
    const TEXT: &str = "
        routine 0 at 0 need 3
        routine 1 at 8 need 1

        0   8000  30 07  mov R0, 7
        1   8000  5C 00  push R0
        2   8001  A8 08  call 8
        3   8001  84 00  pop R1
        4   8000  A8 08  call 8
        5   8000  F8 00  hlt
        8   8100  5D 00  push R1
        9   8101  9C 00  swap R3, R0
        10  8101  84 00  pop R1
        11  8100  AC 00  ret
    ";

    /// What is on the stack from the top before each step, and at the end.
    fn followed(text: &str) -> Vec<String> {
        let listing = Listing::from_text(text).expect("a listing");
        let mut board = listing.admit().expect("an admitted listing").board();
        let mut owners = Owners::default();
        let mut shown = Vec::new();
        loop {
            shown.push(checked(&owners, &board));
            owners.step(&listing, board.state());
            if board.step(&[]).expect("a step").stop == Stop::Halted {
                shown.push(checked(&owners, &board));
                return shown;
            }
        }
    }

    /// The entries as text, if they are what is on the board's stack.
    fn checked(owners: &Owners, board: &Board) -> String {
        let sp = usize::from(board.state().sp);
        let bytes = owners.entries().map(|entry| match entry {
            Entry::Pushed { byte, .. } => *byte,
            Entry::Return { to } => *to,
        });
        assert_eq!(bytes.collect::<Vec<u8>>(), board.stack()[sp..255]);
        let texts: Vec<String> = owners.entries().map(Entry::to_string).collect();
        texts.join(", ")
    }

    #[test]
    fn pushes_calls_swaps_pops_and_returns() {
        let wanted = [
            "",
            "",
            "7 of routine 0",
            "return to 3, 7 of routine 0",
            "0 of routine 1, return to 3, 7 of routine 0",
            "7 of routine 1, return to 3, 7 of routine 0",
            "return to 3, 7 of routine 0",
            "7 of routine 0",
            "",
            "return to 5",
            "7 of routine 1, return to 5",
            "7 of routine 1, return to 5",
            "return to 5",
            "",
            "",
        ];
        assert_eq!(followed(TEXT), wanted);
    }

    #[test]
    fn other_instructions_leave_the_row() {
        let text = "routine 0 at 0 need 1\n0 8000 5C 00 push R0\n1 8001 A0 02 jmp 2\n\
                    2 8001 B0 03 jz 3\n3 8001 FC 00 nop\n4 8001 F8 00 hlt";
        let top = "0 of routine 0";
        assert_eq!(followed(text), ["", top, top, top, top, top]);
    }
}
