//! What one seat has, by itself; rooms are put together from it, and taken apart.

use crate::memory::{Guarded, Memory};
use crate::room::{seated, Room};
use cesca::{Lent, Overflow, SeatLengths, Seats, State, Stop, BANK};

/// The lengths at the places past the last seat: with one of them, no sum would be right.
const OTHER_LENGTH: usize = 3;

/// The positions there: past every end.
const OTHER_POSITION: usize = usize::MAX;

/// The buffers of one seat, its state, and the words that stand on its roll.
#[derive(Clone, Debug, PartialEq, Eq)]
pub struct Board {
    pub memory: Memory,
    pub state: State,
    pub words: usize,
}

impl Board {
    /// A board in the start state with these words from address 0, no keys, and a roll of so many
    /// sevens on which nothing stands yet.
    pub fn new(words: &[[u8; 2]], roll: usize) -> Board {
        let mut memory = Memory::with_words(words);
        memory.roll = Guarded::new(vec![7; roll]);
        Board { memory, state: State::start(), words: 0 }
    }

    /// What a run of the board is lent: all of it, but of its roll only what isn't written yet.
    pub fn lend(&mut self) -> Lent<'_> {
        let lent = self.memory.lend();
        Lent { roll: &mut lent.roll[self.words..], ..lent }
    }

    /// The stop that keeps it from its next step, if one does.
    pub fn next_stop(&self) -> Option<Stop> {
        let report = reference::run(self.clone().lend(), 1, self.state);
        let report = report.expect("nothing to refuse");
        (report.steps == 0).then_some(report.stop)
    }
}

impl Room {
    /// The room with these boards at its seats.
    pub fn of(boards: &[Board]) -> Room {
        let joined = |buffer: fn(&Memory) -> &Guarded<u8>| {
            let parts = boards.iter().map(|board| buffer(&board.memory).inner());
            Guarded::new(parts.collect::<Vec<_>>().concat())
        };
        let rolls = boards.iter().map(|board| board.memory.roll.inner());
        let memory = Memory {
            opcodes: joined(|memory| &memory.opcodes),
            arguments: joined(|memory| &memory.arguments),
            keys: joined(|memory| &memory.keys),
            ram: joined(|memory| &memory.ram),
            stack: joined(|memory| &memory.stack),
            roll: Guarded::new(rolls.collect::<Vec<_>>().concat()),
        };
        let keys = boards.iter().map(|board| board.memory.keys.inner().len());
        let rolls = boards.iter().map(|board| board.memory.roll.inner().len());
        let lengths =
            SeatLengths { keys: seated(keys, OTHER_LENGTH), rolls: seated(rolls, OTHER_LENGTH) };
        let seats = Seats {
            states: seated(boards.iter().map(|board| board.state), other_state()),
            roll_positions: seated(boards.iter().map(|board| board.words), OTHER_POSITION),
        };
        Room { count: boards.len(), memory, lengths, seats }
    }

    /// The board at a seat.
    pub fn board(&self, seat: usize) -> Board {
        let bank = |bytes: &Guarded<u8>| {
            Guarded::new(bytes.inner()[seat * BANK..][..BANK].iter().copied())
        };
        let [keys, rolls] = [self.lengths.keys, self.lengths.rolls]
            .map(|lengths| (lengths[..seat].iter().sum::<usize>(), lengths[seat]));
        let memory = Memory {
            opcodes: bank(&self.memory.opcodes),
            arguments: bank(&self.memory.arguments),
            keys: Guarded::new(self.memory.keys.inner()[keys.0..][..keys.1].iter().copied()),
            ram: bank(&self.memory.ram),
            stack: bank(&self.memory.stack),
            roll: Guarded::new(self.memory.roll.inner()[rolls.0..][..rolls.1].iter().copied()),
        };
        let (state, words) = (self.seats.states[seat], self.seats.roll_positions[seat]);
        Board { memory, state, words }
    }

    /// All boards, seat by seat.
    pub fn boards(&self) -> Vec<Board> {
        (0..self.count).map(|seat| self.board(seat)).collect()
    }
}

/// The state at the places past the last seat, where nobody looks.
fn other_state() -> State {
    let mut state = State { regs: [0xA5; 4], pc: 0x5A, sp: 9, out: 8, ..State::start() };
    state.flags.v = Overflow::Set;
    State { position: OTHER_POSITION, ..state }
}

#[test]
fn a_room_comes_apart_into_its_boards() {
    let mut boards = [Board::new(&[[0xFC, 0x01]], 2), Board::new(&[], 0), Board::new(&[], 5)];
    boards[0].memory.keys = Guarded::new([1, 2, 3]);
    boards[2].memory.keys = Guarded::new([4]);
    boards[1].memory.stack.inner_mut()[255] = 6;
    boards[2].memory.ram.inner_mut()[0] = 7;
    (boards[1].state.pc, boards[2].words) = (200, 5);
    let room = Room::of(&boards);
    assert_eq!(room.boards(), boards);
    assert_eq!(
        (room.lengths.keys, room.lengths.rolls),
        ([3, 0, 1, 3, 3, 3, 3, 3], [2, 0, 5, 3, 3, 3, 3, 3])
    );
    assert_eq!(room.memory.keys.inner(), [1, 2, 3, 4]);
    assert_eq!((room.memory.stack.inner()[511], room.memory.ram.inner()[512]), (6, 7));
    assert_eq!(room.memory.opcodes.inner().len(), 3 * BANK);
}
