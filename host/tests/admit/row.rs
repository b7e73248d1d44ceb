//! The row of entries that is kept beside a list of runs, and what is promised of each step.

use cesca::{Class, State, BANK};
use reference::{Instruction, Listing, SheetWord};

/// A byte on the stack.
#[derive(Clone, Copy, Debug, PartialEq, Eq)]
enum Entry {
    /// A byte pushed by a routine.
    Pushed { byte: u8, routine: u8 },
    /// A return address.
    Return(u8),
}

/// A step and what it found.
#[derive(Clone, Copy, Debug)]
pub struct Found {
    pub instruction: Instruction,
    pub before: State,
    pub after: State,
    /// The byte at SP before the step.
    pub at_sp: u8,
}

/// The entries, the last one last.
pub struct Row {
    sheet: Vec<SheetWord>,
    /// Routine 0's need.
    need: usize,
    entries: Vec<Entry>,
    /// The stack's places that were stored to since the list's beginning.
    pub stored: [bool; BANK],
}

impl Row {
    /// The row at the beginning of a list.
    pub fn new(listing: &Listing) -> Row {
        Row {
            sheet: listing.sheet_words(),
            need: listing.list[1].into(),
            entries: Vec::new(),
            stored: [false; BANK],
        }
    }

    /// Goes on to the next run that isn't refused; the row is emptied if it starts anew.
    pub fn begin(&mut self, restart: bool) {
        if restart {
            self.entries.clear();
        }
    }

    /// Feeds the row a step and checks what is promised of it.
    pub fn step(&mut self, found: Found) {
        let Found { instruction, before, after, .. } = found;
        let word = self.sheet[usize::from(before.pc)];
        assert!(word.described(), "a step where nothing is described: {found:?}");
        match instruction.form.class() {
            Class::Push => self.push(found, word),
            Class::Call => self.store(after.sp, Entry::Return(before.pc.wrapping_add(1))),
            Class::Pop => self.take_own(found, word),
            Class::Swap => self.swap(found, word),
            Class::Return => {
                let last = self.entries.pop();
                assert_eq!(last, Some(Entry::Return(after.pc)), "{found:?}");
            }
            _ => (),
        }
        assert!(self.entries.len() <= self.need, "more entries than needed: {found:?}");
        assert_eq!(usize::from(after.sp), 255 - self.entries.len(), "{found:?}");
    }

    /// Whether there are entries and as many as routine 0's need.
    pub fn is_full(&self) -> bool {
        self.need > 0 && self.entries.len() == self.need
    }

    /// Adds an entry, which is stored at a place of the stack.
    fn store(&mut self, at: u8, entry: Entry) {
        self.stored[usize::from(at)] = true;
        self.entries.push(entry);
    }

    /// Adds the byte that a push stores.
    fn push(&mut self, found: Found, word: SheetWord) {
        let byte = found.before.regs[usize::from(found.instruction.a)];
        self.store(found.after.sp, Entry::Pushed { byte, routine: word.routine() });
    }

    /// Takes off the last entry, which must be the routine's own and hold the byte at SP.
    fn take_own(&mut self, found: Found, word: SheetWord) {
        let wanted = Entry::Pushed { byte: found.at_sp, routine: word.routine() };
        assert_eq!(self.entries.pop(), Some(wanted), "{found:?}");
    }

    /// Puts Ra's byte in the last entry, the routine's own.
    fn swap(&mut self, found: Found, word: SheetWord) {
        self.take_own(found, word);
        self.push(found, word);
    }
}
