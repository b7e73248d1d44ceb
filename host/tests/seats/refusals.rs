//! Refused turns: the first number in the papers' order, and nothing is changed.

use crate::board::Board;
use crate::compare::compared;
use crate::faults::{faults, Call, Fault};
use crate::memory::Guarded;
use crate::room::Room;
use crate::writing::{memory, start};
use cesca::{SeatLengths, Seats, State, Stop, MOST_SEATS};

/// The order in which a call is looked at.
const ORDER: [u8; 4] = [28, 29, 17, 18];

/// The seats of the rooms that are tried.
const COUNTS: [usize; 4] = [1, 2, 5, 8];

/// A call with no fault. Every board would write to all that it may write to; of each three, one is
/// halted, and one has a full roll and no key left.
fn good(count: usize) -> Call {
    let board = |seat: usize| {
        let board = Board { memory: memory(), state: start(0), words: 0 };
        match seat % 3 {
            0 => board,
            1 => Board { state: State { halted: true, ..board.state }, ..board },
            _ => Board { state: start(2), words: 1, ..board },
        }
    };
    let boards: Vec<Board> = (0..count).map(board).collect();
    Call { room: Room::of(&boards), slice: 5, from: 1 }
}

/// Checks that both refuse a call by this number, and so leave all.
fn check(call: &Call, number: u8, why: &str) {
    let (answer, _) = compared(&call.room, call.slice, call.from);
    assert_eq!(answer, Err(number), "{why}");
}

#[test]
fn the_same_without_a_fault_is_a_turn() {
    // Seat 1 is halted. Seat 0 makes four steps, and seat 2 two before it would write to its roll.
    for (count, seat, steps) in [(1, 0, 4), (2, 0, 4), (5, 2, 2), (8, 2, 2)] {
        let Call { room, slice, from } = good(count);
        let (answer, after) = compared(&room, slice, from);
        let turn = answer.expect("nothing to refuse").expect("a seat that can go on");
        assert_eq!((turn.seat, turn.steps), (seat, steps), "{count}");
        assert_ne!(after, room);
    }
}

#[test]
fn each_fault_by_itself() {
    for count in COUNTS {
        for fault in faults(count) {
            for from in [0, 1, count - 1, usize::MAX] {
                let mut call = Call { from, ..good(count) };
                fault.apply(&mut call);
                check(&call, fault.number, &fault.name);
            }
        }
    }
}

/// Whether a position of one of the first seats is past its end.
fn is_past(room: &Room, seats: usize) -> bool {
    let Room { lengths, seats: Seats { states, roll_positions }, .. } = room;
    (0..seats).any(|seat| {
        states[seat].position > lengths.keys[seat] || roll_positions[seat] > lengths.rolls[seat]
    })
}

#[test]
fn of_two_faults_the_earlier() {
    let place = |fault: &Fault| ORDER.iter().position(|it| *it == fault.number).expect("a number");
    for count in COUNTS {
        let faults = faults(count);
        let mut met = [[0; ORDER.len()]; ORDER.len()];
        for first in &faults {
            for second in faults.iter().filter(|second| place(second) > place(first)) {
                let mut call = good(count);
                // A position comes last, since it is put past the end that there is by then.
                first.apply(&mut call);
                second.apply(&mut call);
                if second.number == 18 && !is_past(&call.room, count) {
                    continue; // Nothing is past a length of `usize::MAX`.
                }
                check(&call, first.number, &format!("{} and {}", first.name, second.name));
                met[place(first)][place(second)] += 1;
            }
        }
        let pairs = met.iter().flatten().filter(|count| **count > 0).count();
        assert_eq!(pairs, ORDER.len() * (ORDER.len() - 1) / 2, "{met:?}");
    }
}

#[test]
fn nobody_can_go_on_and_still_it_is_refused() {
    for fault in faults(3) {
        let mut call = good(3);
        call.room.seats.states[0].halted = true;
        call.room.seats.states[2].halted = true;
        let (answer, _) = compared(&call.room, call.slice, call.from);
        assert_eq!(answer, Ok(None));
        fault.apply(&mut call);
        check(&call, fault.number, &fault.name);
    }
}

#[test]
fn positions_at_the_ends_are_allowed() {
    for count in COUNTS {
        let mut call = good(count);
        for seat in 0..count {
            call.room.seats.states[seat].position = 2;
            call.room.seats.roll_positions[seat] = 1;
        }
        let (answer, _) = compared(&call.room, call.slice, 0);
        // mov [R0], R0 and push R1; then the roll is full.
        let turn = answer.expect("nothing to refuse").expect("seat 0 can go on");
        assert_eq!((turn.seat, turn.stop, turn.steps), (0, Stop::Full, 2), "{count}");
    }
}

#[test]
fn a_neighbours_part_is_past_the_end() {
    // Both have two keys and a roll of one word: the third key and the second word are the other's.
    let mut call = good(2);
    call.room.seats.states[0].position = 3;
    check(&call, 18, "a key of the next seat");
    let mut call = good(2);
    call.room.seats.roll_positions[0] = 2;
    check(&call, 18, "a word of the next seat");
}

#[test]
fn sums_are_exact() {
    let max = usize::MAX;
    let wrapped = [
        [max, 1, 0, 0, 0, 0, 0, 0],
        [1, max, 0, 0, 0, 0, 0, 0],
        [0, 0, 0, 0, 0, 0, max, 1],
        [1 << 61; 8],
        [max, max, 2, 0, 0, 0, 0, 0],
        [max, max, max, max, max, max, max, 7],
        [1 << 63, 0, 0, 0, 0, 0, 0, 1 << 63],
        [u32::MAX as usize, 1, 0, 0, 0, 0, 0, 0],
    ];
    let empty = Room::of(&vec![Board::new(&[[0xFC, 0x00]], 0); MOST_SEATS]);
    let zeros = [0; MOST_SEATS];
    for lengths in wrapped {
        for (keys, rolls) in [(lengths, zeros), (zeros, lengths), (lengths, lengths)] {
            let room = Room { lengths: SeatLengths { keys, rolls }, ..empty.clone() };
            check(&Call { room, slice: 1, from: 0 }, 17, &format!("{lengths:?}"));
        }
    }
    assert!(matches!(compared(&empty, 1, 0).0, Ok(Some(_))));
}

#[test]
fn sums_that_wrap_to_what_is_there() {
    // Three keys and three words; the lengths add up to 2 to the 64 and 3.
    let mut board = Board::new(&[[0xFC, 0x00]], 3);
    board.memory.keys = Guarded::new([1, 2, 3]);
    let room = Room::of(&[board, Board::new(&[], 0)]);
    for [one, other] in [[4, usize::MAX], [usize::MAX, 4], [1 << 63, (1 << 63) + 3]] {
        for right in [[3, 0], [0, 3]] {
            for (keys, rolls) in [([one, other], right), (right, [one, other])] {
                let mut room = room.clone();
                room.lengths.keys[..2].copy_from_slice(&keys);
                room.lengths.rolls[..2].copy_from_slice(&rolls);
                check(&Call { room, slice: 1, from: 0 }, 17, &format!("{keys:?}, {rolls:?}"));
            }
        }
    }
}

#[test]
fn what_is_past_the_last_seat_is_not_looked_at() {
    let Call { mut room, slice, .. } = good(5);
    for other in [0, 1, 77, usize::MAX] {
        room.lengths.keys[5..].fill(other);
        room.lengths.rolls[5..].fill(other);
        for position in [0, 1, usize::MAX] {
            let Seats { states, roll_positions } = &mut room.seats;
            states[5..].iter_mut().for_each(|state| state.position = position);
            roll_positions[5..].fill(position);
            let (answer, after) = compared(&room, slice, 0);
            let turn = answer.expect("nothing to refuse").expect("seat 0 can go on");
            assert_eq!((turn.seat, turn.steps), (0, 4));
            assert_eq!(after.seats.states[5..], room.seats.states[5..]);
            assert_eq!(after.seats.roll_positions[5..], room.seats.roll_positions[5..]);
        }
    }
}
