//! Random rooms, slices and given seats.

use crate::board::Board;
use crate::random::Random;
use crate::room::Room;
use cesca::{MOST_SEATS, MOST_SLICE};

/// A room of 1 to 8 boards of any kind.
pub fn room(random: &mut Random) -> Room {
    room_of(random, Board::random)
}

/// A room of 1 to 8 boards of which half go on for ever, or until their roll is full.
pub fn busy_room(random: &mut Random) -> Room {
    room_of(random, |random| match random.once_in(2) {
        true => Board::endless(random),
        false => Board::random(random),
    })
}

/// A room of 1 to 8 such boards.
pub fn room_of(random: &mut Random, mut board: impl FnMut(&mut Random) -> Board) -> Room {
    let count = 1 + random.below(MOST_SEATS as u32);
    let boards: Vec<Board> = (0..count).map(|_| board(random)).collect();
    Room::of(&boards)
}

/// A slice, often a small one.
pub fn slice(random: &mut Random) -> u32 {
    let most = random.pick(&[1, 1, 2, 4, 4, 20, 20, 100, MOST_SLICE]);
    if random.once_in(16) {
        most
    } else {
        1 + random.below(most)
    }
}

/// A seat to begin with: mostly a number below 16, so that there may be such a seat, else any
/// number.
pub fn given(random: &mut Random) -> usize {
    let near = random.below(2 * MOST_SEATS as u32) as usize;
    match random.below(8) {
        0 => random.number() as usize,
        1 => usize::MAX - near,
        2 => (1 << random.below(64)) + near % 3,
        _ => near,
    }
}
