//! A board, and beside it the calls that it stands for, on buffers inside guards.

use crate::case::Case;
use crate::memory::{Guarded, Memory};
use crate::random::Random;
use cesca::{run, Board, Busy, Lent, Listing, Refusal, Report, State, BANK, LINE, SHEET};

/// A word that no transfer makes.
const BLANK: u16 = 999;

/// A board, and what calls of `run` are lent.
#[derive(Clone)]
pub struct Pair {
    pub board: Board,
    memory: Memory,
    state: State,
    /// The words that stand in the roll.
    words: usize,
}

impl Pair {
    /// A board with a random program and random data, and a roll of so many words.
    pub fn random(random: &mut Random, words: usize) -> Pair {
        let Case { mut memory, .. } = Case::good(random);
        memory.stack = Guarded::new([0; BANK]);
        memory.roll = blank(words);
        let [opcodes, arguments] = [&memory.opcodes, &memory.arguments]
            .map(|bank| bank.inner().try_into().expect("a bank"));
        let listing = Listing::from_parts(opcodes, arguments, [0; SHEET], &[0, 0]);
        let mut board = Board::new(&listing.expect("a routine")).with_roll(words);
        board.data_mut().copy_from_slice(memory.ram.inner());
        Pair { board, memory, state: State::start(), words: 0 }
    }

    /// What a run reports, on the board and by the call, and on another board by a busy run.
    pub fn run(&mut self, keys: &[u8], budget: u32) -> Result<Report, Refusal> {
        let lent = self.memory.lend();
        let lent = Lent { keys, roll: &mut lent.roll[self.words..], ..lent };
        let wanted = run(lent, budget, self.state);
        if let Ok(report) = &wanted {
            self.state = report.state;
            self.words += report.words;
        }
        let before = self.board.clone();
        let found = self.board.run(keys, budget);
        assert_eq!(found, wanted, "budget {budget}");
        assert!(found.is_ok() || self.board == before, "a refusal changed the board");
        self.check();
        self.check_busy(before, keys, budget, &found);
        found
    }

    /// Checks that a busy run on the board as it was reports the same and leaves the same board,
    /// and that its counters and its page tell of as many steps and addresses.
    fn check_busy(
        &self,
        mut board: Board,
        keys: &[u8],
        budget: u32,
        wanted: &Result<Report, Refusal>,
    ) {
        let busy = board.run_busy(keys, budget);
        assert_eq!(busy.as_ref().map(|busy| &busy.report), wanted.as_ref(), "budget {budget}");
        assert!(board == self.board, "a busy run leaves another board");
        if let Ok(Busy { report, counters, page }) = busy {
            assert_eq!(counters.iter().sum::<u32>(), report.steps);
            let executed = counters.iter().filter(|count| **count > 0).count();
            assert_eq!((page.lines().count(), page.len()), (executed, executed * LINE));
        }
    }

    /// Goes back to the start state.
    pub fn reset(&mut self) {
        self.board.reset();
        (self.state, self.words) = (State::start(), 0);
        self.memory.roll = blank(self.memory.roll.inner().len());
        self.check();
    }

    /// Checks that the board has what the calls left.
    fn check(&self) {
        let Pair { board, memory, state, words } = self;
        assert_eq!(board.state(), state);
        assert_eq!(board.data()[..], *memory.ram.inner());
        assert_eq!(board.stack()[..], *memory.stack.inner());
        let (written, rest) = memory.roll.inner().split_at(*words);
        assert_eq!(board.roll(), written);
        assert!(rest.iter().all(|word| *word == BLANK), "words past those counted");
    }
}

/// A roll of so many words that nothing is written to yet.
fn blank(words: usize) -> Guarded<u16> {
    Guarded::new(vec![BLANK; words])
}
