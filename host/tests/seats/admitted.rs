//! What a teacher was told of an admitted listing remains true at its seat: no stop is `unsettled`,
//! told or not, and SP falls below 255 less the need after no step.

use crate::board::Board;
use crate::listings::LISTINGS;
use crate::memory::Guarded;
use crate::programs::{Kind, Program};
use crate::random::{each_case, Random};
use crate::random_rooms::{given, room_of, slice};
use crate::room::Room;
use cesca::{draw, turn, Overflow, Stop};
use reference::{run_watched, Listing};
use std::sync::LazyLock;

/// The rooms of near-sound programs.
const ROOMS: u64 = 3_000;

/// The turns of each room.
const TURNS: u32 = 40;

/// An admitted listing's banks, and its need.
#[derive(Clone)]
struct Admitted {
    program: Program,
    need: u8,
}

/// The stored listings that are admitted.
static STORED: LazyLock<Vec<Admitted>> = LazyLock::new(|| {
    let admitted = |listing: &Listing| {
        let Listing { opcodes, arguments, sheet, list } = listing;
        cesca::admit(opcodes, arguments, sheet, list).is_ok()
    };
    let admitted = LISTINGS.iter().filter(|listing| admitted(listing));
    admitted.map(|it| Admitted { program: Program::of(it), need: it.list[1] }).collect()
});

/// A random program for which a sheet and a list are drawn, with the need in them.
fn drawn(random: &mut Random) -> Admitted {
    loop {
        let program = Kind::Sound.program(random);
        if let Ok(drawing) = draw(&program.opcodes, &program.arguments) {
            return Admitted { program, need: drawing.list[1] };
        }
    }
}

/// How often each thing was met.
#[derive(Debug, Default)]
struct Met {
    /// Turns in which a seat ran.
    turns: u64,
    /// Those after which SP is below 255, and just 255 less the need.
    below: u64,
    lowest: u64,
    /// Those that began with V settled.
    settled: u64,
}

/// Checks SP after each step of a board's run, and that the run leads to the board that a turn left.
fn check_steps(mut board: Board, slice: u32, need: u8, left: &Board) {
    let start = board.state;
    let report = run_watched(board.lend(), slice, start, |step| {
        assert!(step.after.sp >= 255 - need, "need {need}, {step:?}");
    });
    let report = report.expect("nothing to refuse");
    (board.state, board.words) = (report.state, board.words + report.words);
    assert!(board == *left, "{board:?}, by a turn {left:?}");
}

/// Makes turns of a room of such listings, with the need of each seat.
fn play(random: &mut Random, mut room: Room, needs: &[u8], met: &mut Met) {
    let mut from = given(random);
    for _ in 0..TURNS {
        let slice = slice(random);
        let (answer, after) = room.turned(turn, slice, from);
        let Some(turn) = answer.expect("nothing to refuse") else { return };
        assert_ne!(turn.stop, Stop::Unsettled, "{turn:?} in {room:?}");
        check_steps(room.board(turn.seat), slice, needs[turn.seat], &after.board(turn.seat));
        // Else the seat would be passed over from now on, and no stop be told.
        let stop = after.board(turn.seat).next_stop();
        assert_ne!(stop, Some(Stop::Unsettled), "after {turn:?} in {room:?}");
        let sp = after.seats.states[turn.seat].sp;
        met.turns += 1;
        met.below += u64::from(sp < 255);
        met.lowest += u64::from(sp < 255 && sp == 255 - needs[turn.seat]);
        let v = room.seats.states[turn.seat].flags.v;
        met.settled += u64::from(v != Overflow::Unsettled);
        from = if random.once_in(4) { given(random) } else { turn.next };
        room = after;
    }
}

/// A room of listings that are drawn at random, each with the need that goes with it.
fn room(random: &mut Random, listing: impl Fn(&mut Random) -> Admitted) -> (Room, Vec<u8>) {
    let mut needs = Vec::new();
    let room = room_of(random, |random| {
        let Admitted { program, need } = listing(random);
        needs.push(need);
        let mut board = Board::bare(&program, random);
        let (keys, roll) = (random.pick(&[0, 5, 40]), random.pick(&[0, 3, 40, 300]));
        board.memory.keys = Guarded::new(random.bytes(keys));
        board.memory.roll = Guarded::new(vec![7; roll]);
        board
    });
    (room, needs)
}

#[test]
fn stored_listings_are_as_safe_at_their_seats() {
    assert!(STORED.len() >= 7, "only {} listings", STORED.len());
    let mut met = Met::default();
    each_case(500, |random| {
        let listing =
            |random: &mut Random| STORED[random.below(STORED.len() as u32) as usize].clone();
        let (room, needs) = room(random, listing);
        play(random, room, &needs, &mut met);
    });
    let Met { turns, below, lowest, settled } = met;
    assert!(turns >= 5_000 && below >= 1_000 && lowest >= 500 && settled >= 1_000, "{met:?}");
}

#[test]
fn drawn_listings_are_as_safe_at_their_seats() {
    let mut met = Met::default();
    each_case(ROOMS, |random| {
        let (room, needs) = room(random, drawn);
        play(random, room, &needs, &mut met);
    });
    let Met { turns, below, lowest, settled } = met;
    assert!(turns >= 30_000 && below >= 5_000 && lowest >= 2_000 && settled >= 5_000, "{met:?}");
}
