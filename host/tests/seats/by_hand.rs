//! Turns worked out by hand: which seat runs, and the seat after it.

use crate::board::Board;
use crate::compare::compared;
use crate::room::Room;
use cesca::{Overflow, Stop, Turn};

/// nop, nop and so on: 8 cycles each.
fn nops() -> Board {
    Board::new(&[[0xFC, 0x00]; 256], 0)
}

/// A halted board.
fn halted() -> Board {
    let mut board = nops();
    board.state.halted = true;
    board
}

/// A board before jv 0, V being unsettled.
fn unsettled() -> Board {
    Board::new(&[[0xC0, 0x00]], 0)
}

/// A board before mov LCD, 65, with a roll of so many words that is full.
fn full(roll: usize) -> Board {
    Board { words: roll, ..Board::new(&[[0xE4, 0x41]], roll) }
}

/// Checks that a turn of both, from a seat on, comes to this; yields the room after it.
#[track_caller]
pub fn check(room: &Room, slice: u32, from: usize, turn: Turn) -> Room {
    let (answer, after) = compared(room, slice, from);
    assert_eq!(answer, Ok(Some(turn)));
    after
}

/// Checks which seat runs a turn of one nop, and the seat after it.
#[track_caller]
fn check_seat(room: &Room, from: usize, seat: usize, next: usize) -> Room {
    let mut wanted = room.clone();
    wanted.seats.states[seat].pc += 1;
    let turn = Turn { seat, next, stop: Stop::Spent, steps: 1, cycles: 8 };
    let after = check(room, 1, from, turn);
    assert!(after == wanted, "{}", after.differences(&wanted));
    after
}

/// Checks that both only say that nobody can go on, from any seat and with any slice.
pub fn check_nobody(room: &Room) {
    for from in [0, 1, 2, 3, 7, 8, usize::MAX] {
        for slice in [1, 2, 1_000] {
            assert_eq!(compared(room, slice, from), (Ok(None), room.clone()), "from {from}");
        }
    }
}

#[test]
fn the_given_seat_runs_if_it_can_and_0_comes_after_the_last() {
    for count in 1..=8 {
        let room = Room::of(&vec![nops(); count]);
        for seat in 0..count - 1 {
            check_seat(&room, seat, seat, seat + 1);
        }
        check_seat(&room, count - 1, count - 1, 0);
    }
}

#[test]
fn the_given_seat_is_taken_modulo_the_seats() {
    let room = Room::of(&vec![nops(); 3]);
    // 2 to the 32 is 1 modulo 3, and so are 2 to the 64 and 10.
    let given = [(3, 0), (4, 1), (5, 2), (8, 2), (9, 0), (10, 1), (255, 0), (256, 1)];
    let far = [(1 << 32, 1), ((1 << 32) + 1, 2), (usize::MAX, 0), (usize::MAX - 1, 2)];
    for (from, seat) in given.into_iter().chain(far) {
        check_seat(&room, from, seat, [1, 2, 0][seat]);
    }
    for from in [0, 1, 7, 1_000_000, usize::MAX] {
        check_seat(&Room::of(&[nops()]), from, 0, 0);
    }
}

#[test]
fn a_turn_gives_the_seat_after_the_one_that_ran() {
    let room = Room::of(&[nops(), halted(), halted(), nops(), nops()]);
    check_seat(&room, 1, 3, 4);
    check_seat(&room, 2, 3, 4);
    check_seat(&room, 3, 3, 4);
    check_seat(&room, 4, 4, 0);
    let room = Room::of(&[halted(), nops(), halted(), halted()]);
    for from in 0..8 {
        check_seat(&room, from, 1, 2);
    }
    let room = Room::of(&[halted(), halted(), nops()]);
    for from in 0..8 {
        check_seat(&room, from, 2, 0);
    }
}

#[test]
fn seats_that_a_stop_keeps_are_passed_over() {
    for kept in [halted(), unsettled(), full(0), full(3)] {
        let room = Room::of(&[kept.clone(), nops(), kept.clone(), kept.clone()]);
        check_seat(&room, 0, 1, 2);
        check_seat(&room, 2, 1, 2);
        let room = Room::of(&[nops(), kept]);
        check_seat(&room, 1, 0, 1);
    }
    let room = Room::of(&[unsettled(), halted(), full(0), full(2), nops(), nops()]);
    check_seat(&room, 0, 4, 5);
}

#[test]
fn nobody_can_go_on() {
    for kept in [halted(), unsettled(), full(0), full(3)] {
        check_nobody(&Room::of(std::slice::from_ref(&kept)));
        check_nobody(&Room::of(&vec![kept; 8]));
    }
    check_nobody(&Room::of(&[unsettled(), full(0), halted(), full(1)]));
}

#[test]
fn a_stop_keeps_only_what_it_is_about() {
    let turn = Turn { seat: 0, next: 1, stop: Stop::Spent, steps: 1, cycles: 3 };
    // jz 0 and jmp 0 test no V; mov OUT, R0 writes no roll; jv 0 and mov LCD, 65 may go on.
    for word in [[0xB0, 0x00], [0xA0, 0x00], [0xF0, 0x00]] {
        check(&Room::of(&[Board::new(&[word], 0), nops()]), 1, 0, turn);
    }
    let mut settled = unsettled();
    settled.state.flags.v = Overflow::Clear;
    check(&Room::of(&[settled, nops()]), 1, 0, turn);
    let room = Room::of(&[Board { words: 2, ..full(3) }, nops()]);
    let after = check(&room, 1, 0, turn);
    assert_eq!((after.memory.roll.inner(), after.seats.roll_positions[0]), (&[7, 7, 65][..], 3));
}

#[test]
fn a_spent_seat_is_not_passed_over() {
    let room = Room::of(&[nops(), nops()]);
    let turn = Turn { seat: 0, next: 1, stop: Stop::Spent, steps: 100, cycles: 800 };
    let once = check(&room, 100, 0, turn);
    let twice = check(&once, 100, 0, turn);
    let round = check(&twice, 100, 1, Turn { seat: 1, next: 0, ..turn });
    assert_eq!(round.seats.states.map(|state| state.pc)[..2], [200, 100]);
}

#[test]
fn turns_go_round_the_seats_in_order() {
    let mut room = Room::of(&vec![nops(); 8]);
    let mut from = 0;
    for turn in 0..24 {
        room = check_seat(&room, from, turn % 8, (turn + 1) % 8);
        from = (turn + 1) % 8;
    }
    assert_eq!(room.seats.states.map(|state| state.pc), [3; 8]);
}
