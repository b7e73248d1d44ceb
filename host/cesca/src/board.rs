//! A board with a listing keyed in.

use crate::busy::{run_busy, Busy};
use crate::calls::run;
use crate::Listing;
use cesca_types::{BusyReport, Lent, Records, Refusal, Report, State, BANK, LINE, PAGE};

/// A board: its banks, its state and its roll.
///
/// What is proved of an admitted listing's runs holds of its board's, as long as the data is
/// written in the start state alone.
#[derive(Clone, Debug, PartialEq, Eq)]
pub struct Board {
    opcodes: [u8; BANK],
    arguments: [u8; BANK],
    data: [u8; BANK],
    stack: [u8; BANK],
    state: State,
    roll: Vec<u16>,
    /// The words of the roll that were written since the last reset.
    words: usize,
}

impl Board {
    /// The words of a board's roll, unless another number is asked for.
    pub const ROLL: usize = 1_000;

    /// A board with a listing, admitted or not, in the start state: data and stack are 0, and the
    /// roll is empty.
    pub fn new(listing: &Listing) -> Board {
        Board {
            opcodes: *listing.opcodes(),
            arguments: *listing.arguments(),
            data: [0; BANK],
            stack: [0; BANK],
            state: State::start(),
            roll: vec![0; Board::ROLL],
            words: 0,
        }
    }

    /// The same board with an empty roll of so many words.
    ///
    /// A roll that has stopped a run as full stops each further one after 0 steps; with an empty
    /// one in mid-run, the run goes on where it stopped.
    pub fn with_roll(self, words: usize) -> Board {
        Board { roll: vec![0; words], words: 0, ..self }
    }

    /// What a run of at most `budget` steps from the state reached reports, or why there is none.
    ///
    /// The words that it writes stand in the roll behind those written before. An instruction that
    /// would write to a full roll stops the run with [`Full`](crate::Stop::Full), and each further
    /// run with a budget above 0 stops so after 0 steps: [`with_roll`](Board::with_roll) gives an
    /// empty roll in mid-run, and [`reset`](Board::reset) empties it too.
    ///
    /// The state has a position in the keys, so a run that goes on is given the keys of the run
    /// before, or those and more. A refusal changes nothing: 18 where the position is past the end
    /// of the keys, 19 where the budget is over [`MOST_STEPS`](crate::MOST_STEPS).
    pub fn run(&mut self, keys: &[u8], budget: u32) -> Result<Report, Refusal> {
        let start = self.state;
        let report = run(self.lend(keys), budget, start)?;
        self.take_over(&report);
        Ok(report)
    }

    /// What a run of at most `budget` steps from the state reached reports, how often each address
    /// executed in it, and the page of them; or why there is none.
    ///
    /// It reports and refuses what [`run`](Board::run) does, and leaves the board as that would.
    ///
    /// ```
    /// # fn main() -> Result<(), Box<dyn std::error::Error>> {
    /// let banks = cesca::assemble(b"mov R0, 3\nloop: dec R0\njnz loop\nhlt\n")?;
    /// let listing = cesca::Listing::from_banks(banks.opcodes, banks.arguments)?;
    /// let busy = listing.admit()?.board().run_busy(&[], 1_000)?;
    /// assert_eq!((busy.report.steps, &busy.counters[..5]), (8, &[1, 3, 3, 1, 0][..]));
    /// let lines: Vec<&str> = busy.page.lines().map(str::trim_end).collect();
    /// assert_eq!(lines[..2], ["01       3 add R0, R0, 255", "02       3 jnz 1"]);
    /// assert_eq!(lines[2..], ["00       1 mov R0, 3", "03       1 hlt"]);
    /// # Ok(())
    /// # }
    /// ```
    pub fn run_busy(&mut self, keys: &[u8], budget: u32) -> Result<Busy, Refusal> {
        let start = self.state;
        let (mut counters, mut page) = ([0; BANK], vec![0; PAGE]);
        let records = Records { counters: &mut counters, page: &mut page };
        let BusyReport { report, lines } = run_busy(self.lend(keys), records, budget, start)?;
        self.take_over(&report);
        page.truncate(lines * LINE);
        let page = String::from_utf8(page).expect("the library writes ASCII");
        Ok(Busy { report, counters, page })
    }

    /// What a run on the board is lent: the roll begins behind the words written before.
    fn lend<'a>(&'a mut self, keys: &'a [u8]) -> Lent<'a> {
        Lent {
            opcodes: &self.opcodes,
            arguments: &self.arguments,
            keys,
            ram: &mut self.data,
            stack: &mut self.stack,
            roll: &mut self.roll[self.words..],
        }
    }

    /// Takes over what a run reports: the state reached, and the words behind those before.
    fn take_over(&mut self, report: &Report) {
        self.state = report.state;
        self.words += report.words;
    }

    /// What a run of one step reports, or why there is none.
    pub fn step(&mut self, keys: &[u8]) -> Result<Report, Refusal> {
        self.run(keys, 1)
    }

    /// Goes back to the start state, with an empty roll; data and stack stay as they are.
    pub fn reset(&mut self) {
        self.state = State::start();
        self.words = 0;
    }

    /// The state reached.
    pub fn state(&self) -> &State {
        &self.state
    }

    /// The bank of data.
    pub fn data(&self) -> &[u8; BANK] {
        &self.data
    }

    /// The bank of data for writing.
    pub fn data_mut(&mut self) -> &mut [u8; BANK] {
        &mut self.data
    }

    /// The bank of the stack.
    pub fn stack(&self) -> &[u8; BANK] {
        &self.stack
    }

    /// The words written to the roll since the last reset: a byte for data, 256 more for a command.
    pub fn roll(&self) -> &[u16] {
        &self.roll[..self.words]
    }
}

#[cfg(test)]
mod tests {
    use super::*;
    use crate::samples::a;
    use cesca_types::Stop;

    /// The stop and the steps of a run without keys.
    fn run(board: &mut Board, budget: u32) -> (Stop, u32) {
        let report = board.run(&[], budget).expect("nothing to refuse");
        (report.stop, report.steps)
    }

    #[test]
    fn a_full_roll_stops_each_run_until_it_is_empty() {
        // mov LCD, 65; jmp 0
        let listing = a().word(0, [0xE4, 0x41]).word(1, [0xA0, 0x00]).listing();
        let mut board = Board::new(&listing).with_roll(2);
        assert_eq!(run(&mut board, 100), (Stop::Full, 4));
        let full = board.clone();
        for (budget, stop) in [(100, Stop::Full), (1, Stop::Full), (0, Stop::Spent)] {
            assert_eq!(run(&mut board, budget), (stop, 0));
            assert_eq!(board, full);
        }
        let mut board = board.with_roll(1);
        assert_eq!((board.state(), board.roll()), (full.state(), &[][..]));
        assert_eq!(run(&mut board, 100), (Stop::Full, 2));
        assert_eq!(board.roll(), [65]);
        board.reset();
        assert_eq!(board.roll(), []);
        assert_eq!(run(&mut board, 100), (Stop::Full, 2));
        assert_eq!(board.roll(), [65]);
    }
}
