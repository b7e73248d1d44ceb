//! A room of eight boards with one program, and the same boards by themselves.

use cesca::{run, turn, Lent, Report, SeatLengths, Seats, State, Turn, BANK, MOST_SEATS};
use reference::Listing;
use std::hint::black_box;

/// The keys of each board.
const KEYS: usize = 200;

/// The words of each board's roll, more than a program here writes before it is started anew.
const ROLL: usize = 20_000;

/// The boards' buffers, one behind another, with what each seat has beside them.
pub struct Room {
    opcodes: Vec<u8>,
    arguments: Vec<u8>,
    keys: Vec<u8>,
    ram: Vec<u8>,
    stack: Vec<u8>,
    rolls: Vec<u16>,
    lengths: SeatLengths,
    pub seats: Seats,
}

impl Room {
    /// Boards with a program, nothing being in their other buffers.
    pub fn new(program: &Listing) -> Room {
        Room {
            opcodes: program.opcodes.repeat(MOST_SEATS),
            arguments: program.arguments.repeat(MOST_SEATS),
            keys: keys().repeat(MOST_SEATS),
            ram: vec![0; MOST_SEATS * BANK],
            stack: vec![0; MOST_SEATS * BANK],
            rolls: vec![0; MOST_SEATS * ROLL],
            lengths: SeatLengths { keys: [KEYS; MOST_SEATS], rolls: [ROLL; MOST_SEATS] },
            seats: Seats::start(),
        }
    }

    /// Starts all boards anew, the first ones being halted.
    pub fn start(&mut self, halted: usize) {
        self.seats = Seats::start();
        self.seats.states[..halted].iter_mut().for_each(|state| state.halted = true);
    }

    /// What a turn from a seat on comes to.
    pub fn turn(&mut self, slice: u32, from: usize) -> Turn {
        let lent = Lent {
            opcodes: &self.opcodes,
            arguments: &self.arguments,
            keys: &self.keys,
            ram: &mut self.ram,
            stack: &mut self.stack,
            roll: &mut self.rolls,
        };
        let (count, lengths) = (black_box(MOST_SEATS), black_box(self.lengths));
        let answer = turn(count, black_box(slice), from, black_box(lent), lengths, &mut self.seats);
        black_box(answer).expect("nothing to refuse").expect("a seat that can go on")
    }
}

/// A board by itself.
pub struct Board<'a> {
    program: &'a Listing,
    keys: Vec<u8>,
    ram: [u8; BANK],
    stack: [u8; BANK],
    roll: Vec<u16>,
    pub state: State,
    pub words: usize,
}

impl Board<'_> {
    /// A board with a program, nothing being in its other buffers.
    pub fn new(program: &Listing) -> Board<'_> {
        let (ram, stack, roll) = ([0; BANK], [0; BANK], vec![0; ROLL]);
        Board { program, keys: keys(), ram, stack, roll, state: State::start(), words: 0 }
    }

    /// Starts the board anew.
    pub fn start(&mut self) {
        (self.state, self.words) = (State::start(), 0);
    }

    /// What a run from where the board is comes to.
    pub fn run(&mut self, budget: u32) -> Report {
        let lent = Lent {
            opcodes: &self.program.opcodes,
            arguments: &self.program.arguments,
            keys: &self.keys,
            ram: &mut self.ram,
            stack: &mut self.stack,
            roll: &mut self.roll[self.words..],
        };
        let answer = run(black_box(lent), black_box(budget), black_box(self.state));
        let report = black_box(answer).expect("nothing to refuse");
        (self.state, self.words) = (report.state, self.words + report.words);
        report
    }
}

/// The keys of a board.
fn keys() -> Vec<u8> {
    (1..=KEYS as u8).collect()
}
