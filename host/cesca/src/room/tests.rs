//! Seats as they are added, the turns that they take, and what is seen of them.

use super::*;
use crate::{assemble, Listing};
use cesca_types::{State, Stop};
use std::panic::{catch_unwind, AssertUnwindSafe};

/// The admitted listing of a source.
fn listing(source: &str) -> Admitted {
    let banks = assemble(source.as_bytes()).expect("a source");
    let listing = Listing::from_banks(banks.opcodes, banks.arguments).expect("a sheet");
    listing.admit().expect("an admitted listing")
}

/// Counts in R0 and never ends; a round has 3 steps and 4 + 3 + 3 cycles.
fn counter() -> Admitted {
    listing("loop: inc R0\nmov OUT, R0\njmp loop\n")
}

/// Shows key after key on the LCD and never ends; a round has 4 steps.
fn echo() -> Admitted {
    listing("loop: mov R0, IN\nmov LCD, R0\nmov IN, Ack\njmp loop\n")
}

/// Writes to data and stack, and halts after 5 steps.
fn writer() -> Admitted {
    listing("mov R1, 77\nmov [9], R1\npush R1\nmov OUT, R1\nhlt\n")
}

/// Halts at once.
fn halting() -> Admitted {
    listing("hlt\n")
}

/// A room with these listings, each with these keys and so many words of roll.
fn room(seats: &[(Admitted, &[u8], usize)]) -> Room {
    let mut room = Room::new();
    for (number, (listing, keys, roll)) in seats.iter().enumerate() {
        assert_eq!(room.add(listing, keys, *roll), Ok(number));
    }
    room
}

/// The turn that is made.
fn ran(outcome: Result<Option<Turn>, Refusal>) -> Turn {
    outcome.expect("nothing to refuse").expect("a seat that can go on")
}

/// Where the first of some items lies.
fn place<T>(items: &[T]) -> *const T {
    items.as_ptr()
}

#[test]
fn an_empty_room() {
    let mut room = Room::new();
    assert_eq!((room.len(), room.is_empty(), room.next_seat()), (0, true, 0));
    assert!(room.seat(0).is_none() && room.seats().next().is_none());
    for (from, slice) in [(0, 1), (3, 0), (usize::MAX, 5_000)] {
        let refusal = room.turn_from(from, slice).expect_err("a refusal");
        assert_eq!(refusal.to_string(), "28: the number of seats is 0, not 1 to 8");
    }
    assert!(room == Room::new() && room == Room::default());
}

#[test]
fn a_new_seat_is_in_the_start_state() {
    let room = room(&[(counter(), &[], 0), (echo(), &[5, 6], 3)]);
    assert_eq!((room.len(), room.is_empty(), room.next_seat()), (2, false, 0));
    for (seat, (admitted, keys, roll)) in
        room.seats().zip([(counter(), &[][..], 0), (echo(), &[5, 6], 3)])
    {
        assert_eq!(seat.state(), &State::start());
        assert_eq!(seat.opcodes(), admitted.listing().opcodes());
        assert_eq!(seat.arguments(), admitted.listing().arguments());
        assert_eq!((seat.data(), seat.stack()), (&[0; BANK], &[0; BANK]));
        assert_eq!((seat.keys(), seat.roll(), seat.roll_length()), (keys, &[][..], roll));
        assert_eq!(seat.stop(), None);
    }
    let numbers: Vec<usize> = room.seats().map(|seat| seat.number()).collect();
    assert_eq!(numbers, [0, 1]);
    assert_eq!(room.seat(1).map(|seat| seat.number()), Some(1));
    assert!(room.seat(2).is_none() && room.seat(usize::MAX).is_none());
}

#[test]
fn a_seat_borrows_its_parts_of_the_buffers() {
    let room = room(&[(counter(), &[1], 2), (halting(), &[], 0), (echo(), &[2, 3], 4)]);
    let seat = room.seat(2).expect("a seat");
    assert_eq!(place(seat.opcodes()), place(&room.opcodes[512..]));
    assert_eq!(place(seat.arguments()), place(&room.arguments[512..]));
    assert_eq!(place(seat.data()), place(&room.ram[512..]));
    assert_eq!(place(seat.stack()), place(&room.stack[512..]));
    assert_eq!(place(seat.keys()), place(&room.keys[1..]));
    assert_eq!(place(seat.roll()), place(&room.rolls[2..]));
    assert!(std::ptr::eq(seat.state(), &room.seats.states[2]));
}

#[test]
fn a_ninth_seat_is_refused_and_changes_nothing() {
    let mut room = Room::new();
    for number in 0..8 {
        assert_eq!(room.add(&counter(), &[number], usize::from(number)), Ok(usize::from(number)));
    }
    ran(room.turn(7));
    let before = room.clone();
    let refusal = room.add(&echo(), &[1, 2], 3).expect_err("a refusal");
    assert_eq!((refusal.number(), refusal.place()), (28, None));
    assert_eq!(refusal.to_string(), "28: all 8 seats of the room are taken");
    assert_eq!(room, before);
    assert_eq!(ran(room.turn(7)).seat, 1);
}

#[test]
fn a_free_seat_is_the_one_that_is_added() {
    let mut room = Room::new();
    for number in 0..8 {
        assert_eq!(room.free_seat(), Ok(number));
        assert_eq!(room.add(&counter(), &[], 0), Ok(number));
    }
    assert_eq!(room.free_seat(), room.add(&counter(), &[], 0));
    assert_eq!(room.free_seat().expect_err("a refusal").number(), 28);
}

#[test]
fn a_roll_that_no_memory_holds_changes_nothing() {
    let mut room = room(&[(counter(), &[1], 2)]);
    ran(room.turn(7));
    let before = room.clone();
    for roll in [usize::MAX, usize::MAX / 2] {
        let added = catch_unwind(AssertUnwindSafe(|| room.add(&echo(), &[1, 2], roll)));
        assert!(added.is_err());
        assert_eq!(room, before);
    }
    assert_eq!(ran(room.turn(7)).seat, 0);
}

#[test]
fn turns_go_round_and_pass_over_seats_that_cannot_go_on() {
    let mut room = room(&[(counter(), &[], 0), (halting(), &[], 0), (counter(), &[], 0)]);
    let mut turns = Vec::new();
    for _ in 0..6 {
        let Turn { seat, next, stop, steps, cycles } = ran(room.turn(9));
        assert_eq!(room.next_seat(), next);
        turns.push((seat, next, stop, [steps, cycles]));
    }
    let counted = [9, 30];
    let wanted = [
        (0, 1, Stop::Spent, counted),
        (1, 2, Stop::Halted, [1, 2]),
        (2, 0, Stop::Spent, counted),
        (0, 1, Stop::Spent, counted),
        (2, 0, Stop::Spent, counted),
        (0, 1, Stop::Spent, counted),
    ];
    assert_eq!(turns, wanted);
    let outs: Vec<u8> = room.seats().map(|seat| seat.state().out).collect();
    assert_eq!(outs, [9, 0, 6]);
}

#[test]
fn a_turn_from_any_seat_is_taken_modulo_the_seats() {
    let mut room = room(&[(counter(), &[], 0), (counter(), &[], 0), (counter(), &[], 0)]);
    // The highest number is a multiple of 3.
    for (from, seat, next) in [(2, 2, 0), (0, 0, 1), (4, 1, 2), (usize::MAX, 0, 1), (5, 2, 0)] {
        let turn = ran(room.turn_from(from, 1));
        assert_eq!((turn.seat, turn.next, room.next_seat()), (seat, next, next), "from {from}");
    }
    assert_eq!(ran(room.turn(1)).seat, 0);
}

#[test]
fn where_no_seat_can_go_on_nothing_changes() {
    let mut room = room(&[(halting(), &[], 0), (writer(), &[], 0), (echo(), &[7], 0)]);
    assert_eq!([ran(room.turn(5)).seat, ran(room.turn(5)).seat], [0, 1]);
    let turn = ran(room.turn(5));
    assert_eq!((turn.seat, turn.stop, turn.steps, room.next_seat()), (2, Stop::Full, 1, 0));
    let before = room.clone();
    for from in 0..5 {
        assert_eq!(room.turn_from(from, 1_000), Ok(None));
        assert_eq!(room.turn(1), Ok(None));
    }
    assert_eq!(room, before);
    let stops: Vec<Option<Stop>> = room.seats().map(|seat| seat.stop()).collect();
    assert_eq!(stops, [Stop::Halted, Stop::Halted, Stop::Full].map(Some));
    let seat = room.seat(1).expect("a seat");
    assert_eq!((seat.data()[9], seat.stack()[254], seat.state().out), (77, 77, 77));
    assert_eq!((seat.data()[8], seat.stack()[255]), (0, 0));
}

#[test]
fn slices_that_are_refused_change_nothing() {
    let mut room = room(&[(counter(), &[], 0)]);
    ran(room.turn(1_000));
    let before = room.clone();
    for slice in [0, 1_001, u32::MAX] {
        let shown = format!("29: the slice is {slice} steps, not 1 to 1,000");
        assert_eq!(room.turn(slice).expect_err("a refusal").to_string(), shown);
    }
    assert_eq!(room, before);
}

#[test]
fn seats_with_and_without_keys_and_roll() {
    let seats: [(Admitted, &[u8], usize); 4] =
        [(echo(), &[65, 66, 67], 2), (echo(), &[], 5), (echo(), &[68], 0), (echo(), &[69], 9)];
    let mut room = room(&seats);
    for _ in 0..12 {
        room.turn(3).expect("nothing to refuse");
    }
    let rolls: Vec<&[u16]> = room.seats().map(|seat| seat.roll()).collect();
    // Seat 0 had three turns until its roll was full, and seat 2, whose roll has no words, one; the
    // other eight went to seats 1 and 3: 12 steps and so three rounds each, without a key and with
    // one.
    let wanted: [&[u16]; 4] = [&[65, 66], &[0, 0, 0], &[], &[69, 0, 0]];
    assert_eq!(rolls, wanted);
    let keys: Vec<&[u8]> = room.seats().map(|seat| seat.keys()).collect();
    assert_eq!(keys, [&[65, 66, 67][..], &[], &[68], &[69]]);
    let stops: Vec<Option<Stop>> = room.seats().map(|seat| seat.stop()).collect();
    assert_eq!(stops, [Some(Stop::Full), None, Some(Stop::Full), None]);
}

#[test]
fn a_seat_added_between_turns_leaves_the_others_as_they_are() {
    let seats: [(Admitted, &[u8], usize); 3] =
        [(echo(), &[65, 66, 67], 9), (writer(), &[1], 2), (counter(), &[], 4)];
    let mut alone = room(&seats);
    for slice in [6, 4, 5, 1] {
        ran(alone.turn(slice));
    }
    let mut grown = alone.clone();
    assert_eq!(grown.add(&echo(), &[90; 5], 7), Ok(3));
    assert_eq!((grown.len(), grown.next_seat()), (4, 1));
    for (before, after) in alone.seats().zip(grown.seats()) {
        assert_eq!(parts(&before), parts(&after));
    }
    for _ in 0..8 {
        let turn = ran(grown.turn(3));
        if turn.seat < 3 {
            assert_eq!(ran(alone.turn_from(turn.seat, 3)).seat, turn.seat);
        }
    }
    for (before, after) in alone.seats().zip(grown.seats()) {
        assert_eq!(parts(&before), parts(&after));
    }
    // Two of the eight turns were the new seat's; its second and its sixth step write.
    assert_eq!(grown.seat(3).expect("a seat").roll(), [90, 90]);
}

/// All that is seen of a seat.
fn parts<'a>(seat: &Seat<'a>) -> (&'a State, [&'a [u8]; 5], &'a [u16], usize) {
    let banks = [&seat.opcodes()[..], seat.arguments(), seat.data(), seat.stack(), seat.keys()];
    (seat.state(), banks, seat.roll(), seat.roll_length())
}

#[test]
fn a_seat_comes_to_what_its_board_comes_to_above_the_most_steps_of_a_run() {
    let mut room = room(&[(counter(), &[], 0), (echo(), &[65, 66], 500_000), (writer(), &[], 0)]);
    let mut steps = [0; 3];
    for slice in (1..=1_000).cycle().take(4_500) {
        let turn = ran(room.turn(slice));
        steps[turn.seat] += turn.steps;
    }
    assert!(steps[0] > 1_000_000 && steps[1] > 1_000_000 && steps[2] == 5, "{steps:?}");
    let listings = [(counter(), &[][..]), (echo(), &[65, 66]), (writer(), &[])];
    for ((seat, steps), (listing, keys)) in room.seats().zip(steps).zip(listings) {
        let mut board = listing.board().with_roll(seat.roll_length());
        for budget in [steps / 2, steps - steps / 2] {
            board.run(keys, budget).expect("nothing to refuse");
        }
        assert_eq!(seat.state(), board.state());
        assert_eq!((seat.data(), seat.stack()), (board.data(), board.stack()));
        assert!(seat.roll() == board.roll());
    }
}

#[test]
fn a_stop_is_seen_where_the_next_step_is_prevented() {
    // Its roll fills up just as a slice ends, and the run before stopped as spent.
    let mut room = room(&[(echo(), &[65], 1)]);
    let turn = ran(room.turn(5));
    assert_eq!(
        (turn.stop, room.seat(0).and_then(|seat| seat.stop())),
        (Stop::Spent, Some(Stop::Full))
    );
    assert_eq!(room.turn(5), Ok(None));
}
