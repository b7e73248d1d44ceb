//! Answers that this crate's words don't tell: of seats lent with another number of V, and what a
//! refusal comes with; and how an answer is laid out.

use super::*;
use crate::raw::run::tests::with_v;
use cesca_types::{Overflow, State, Stop, BANK, MOST_SEATS};
use std::mem::{offset_of, size_of};
use std::panic::catch_unwind;

/// `nop`, which takes 8 cycles.
const NOP: [u8; 2] = [0xFC, 0x00];

/// `hlt`.
const HLT: [u8; 2] = [0xF8, 0x00];

/// `jv 0`.
const JV: [u8; 2] = [0xC0, 0x00];

/// The library's answer on two seats with banks of these words, no keys and rolls of no words, for
/// a slice from seat 0 on.
fn turn(words: [[u8; 2]; 2], slice: u32, seats: MaybeUninit<Seats>) -> TurnNumbers {
    let opcodes = words.map(|[opcode, _]| [opcode; BANK]).concat();
    let arguments = words.map(|[_, argument]| [argument; BANK]).concat();
    turn_of(2, slice, [&opcodes, &arguments], seats)
}

/// The same on these two buffers, for so many seats.
fn turn_of(count: usize, slice: u32, banks: [&[u8]; 2], seats: MaybeUninit<Seats>) -> TurnNumbers {
    let [opcodes, arguments] = banks;
    let (mut ram, mut stack) = ([0; 2 * BANK], [0; 2 * BANK]);
    let lent =
        Lent { opcodes, arguments, keys: &[], ram: &mut ram, stack: &mut stack, roll: &mut [] };
    // SAFETY: `seats_with_v` makes seats that are initialised.
    unsafe { call(count, slice, 0, lent, SeatLengths::default(), seats) }
}

/// Seats in the start state with these numbers for V.
fn seats_with_v(numbers: [u8; MOST_SEATS]) -> MaybeUninit<Seats> {
    let mut seats = MaybeUninit::new(Seats::start());
    for (seat, number) in numbers.into_iter().enumerate() {
        // SAFETY: the pointer is to the seat's state, within the seats.
        let state = unsafe { &raw mut (*seats.as_mut_ptr()).states[seat] };
        // SAFETY: a state that may have any number for V has the place of a state.
        unsafe { state.cast::<MaybeUninit<State>>().write(with_v(number)) };
    }
    seats
}

/// The numbers that stand for V in the seats.
fn v(seats: &MaybeUninit<Seats>) -> [u8; MOST_SEATS] {
    std::array::from_fn(|seat| {
        // SAFETY: the seats are initialised, and the pointer is to the one byte of V within them.
        unsafe { (&raw const (*seats.as_ptr()).states[seat].flags.v).cast::<u8>().read() }
    })
}

/// The numbers of an answer before its seats.
fn numbers(answer: &TurnNumbers) -> (u8, bool, u8, [u32; 2], [usize; 2]) {
    let TurnNumbers { number, ran, stop, steps, cycles, seat, next, .. } = *answer;
    (number, ran, stop, [steps, cycles], [seat, next])
}

#[test]
fn the_seat_that_runs_comes_back_with_a_value_of_v_and_the_others_as_lent() {
    for number in 0..=255 {
        let lent = [number, 7, 255, 2, 1, 0, 3, number];
        let ran = turn([NOP, NOP], 3, seats_with_v(lent));
        assert_eq!(numbers(&ran), (0, true, 1, [3, 24], [0, 1]), "V {number}");
        assert_eq!(v(ran.seats()), [number.min(2), 7, 255, 2, 1, 0, 3, number]);
    }
}

#[test]
fn every_other_number_lent_is_unsettled() {
    for number in 2..=255 {
        // The jump is passed over, and seat 1 runs.
        let lent = [number, 9, number, 9, 9, 9, 9, 9];
        let ran = turn([JV, NOP], 2, seats_with_v(lent));
        assert_eq!(numbers(&ran), (0, true, 1, [2, 16], [1, 0]), "V {number}");
        assert_eq!(v(ran.seats()), [number, 2, number, 9, 9, 9, 9, 9]);
    }
    for number in [0, 1] {
        let ran = turn([JV, HLT], 1, seats_with_v([number; 8]));
        assert_eq!((numbers(&ran).4, v(ran.seats())), ([0, 1], [number; 8]));
    }
}

#[test]
fn where_none_can_go_on_there_are_zeros_and_the_seats_lent() {
    for number in 2..=255 {
        let idle = turn([JV, JV], 1_000, seats_with_v([number; 8]));
        assert_eq!((numbers(&idle), v(idle.seats())), ((0, false, 0, [0; 2], [0; 2]), [number; 8]));
        assert_eq!(idle.outcome(), Ok(None));
    }
}

/// Calls for two seats of which one has its roll position past the end: the seats, the slice and the
/// bytes of the opcodes, and the number by which they are refused.
const REFUSED: [(usize, u32, usize, u8); 6] = [
    (0, 0, 511, 28),
    (9, 0, 511, 28),
    (2, 0, 511, 29),
    (2, 1_001, 511, 29),
    (2, 1_000, 511, 17),
    (2, 1_000, 512, 18),
];

/// The words of the seats' banks.
const NOPS: [u8; 2 * BANK] = [0xFC; 2 * BANK];

#[test]
fn a_refusal_comes_with_zeros_and_the_seats_lent() {
    let mut seats = Seats::start();
    for (number, state) in (1..).zip(&mut seats.states) {
        *state = State { regs: [number; 4], pc: number, sp: 9, out: 8, ..*state };
    }
    seats.roll_positions[1] = 1;
    for (count, slice, bank, number) in REFUSED {
        let refused = turn_of(count, slice, [&NOPS[..bank], &NOPS], MaybeUninit::new(seats));
        assert_eq!(numbers(&refused), (number, false, 0, [0; 2], [0; 2]));
        // SAFETY: the seats lent are whole ones, and come back so.
        assert_eq!(unsafe { refused.seats().assume_init() }, seats, "{number}");
    }
}

#[test]
fn a_refusal_hands_back_every_number_of_v() {
    for (count, slice, bank, number) in REFUSED {
        for other in 0..=255 {
            let lent = [other, 7, 255, 2, 1, 0, 3, other];
            let mut seats = seats_with_v(lent);
            // SAFETY: the pointer is to initialised seats.
            unsafe { (*seats.as_mut_ptr()).roll_positions[1] = 1 };
            let refused = turn_of(count, slice, [&NOPS[..bank], &NOPS], seats);
            assert_eq!((refused.number, v(refused.seats())), (number, lent));
        }
    }
}

/// The outcome of an answer with these numbers, none if it breaks the contract.
fn answered(number: u8, ran: bool, stop: u8) -> Option<Result<Option<Turn>, Refusal>> {
    let seats = MaybeUninit::new(Seats::start());
    let (steps, cycles, seat, next) = (5, 17, 6, 7);
    let answer = TurnNumbers { number, ran, stop, steps, cycles, seat, next, seats };
    catch_unwind(|| answer.outcome()).ok()
}

#[test]
fn other_numbers_break_the_contract() {
    let stops = [Stop::Halted, Stop::Spent, Stop::Unsettled, Stop::Full];
    for number in 0..=255 {
        let turn = |stop| Turn { seat: 6, next: 7, stop, steps: 5, cycles: 17 };
        let ran = stops.get(usize::from(number)).map(|stop| Ok(Some(turn(*stop))));
        assert_eq!(answered(0, true, number), ran, "{number}");
        let idle = match number {
            0 => Some(Ok(None)),
            17 | 18 | 28 | 29 => Some(Err(Refusal::of_call(number))),
            _ => None,
        };
        assert_eq!(answered(number, false, 0), idle, "{number}");
        assert_eq!(answered(number.max(1), true, 0), None, "{number}");
    }
}

#[test]
fn an_answer_is_laid_out_as_the_library_has_it() {
    assert_eq!((size_of::<TurnNumbers>(), align_of::<TurnNumbers>()), (288, 8));
    assert_eq!(offset_of!(TurnNumbers, number), 0);
    assert_eq!(offset_of!(TurnNumbers, ran), 1);
    assert_eq!(offset_of!(TurnNumbers, stop), 2);
    assert_eq!(offset_of!(TurnNumbers, steps), 4);
    assert_eq!(offset_of!(TurnNumbers, cycles), 8);
    assert_eq!(offset_of!(TurnNumbers, seat), 16);
    assert_eq!(offset_of!(TurnNumbers, next), 24);
    assert_eq!(offset_of!(TurnNumbers, seats), 32);
}

#[test]
fn what_is_lent_by_value_is_laid_out_as_the_library_has_it() {
    assert_eq!((size_of::<Seats>(), size_of::<SeatLengths>()), (256, 128));
    assert_eq!((offset_of!(Seats, states), offset_of!(Seats, roll_positions)), (0, 192));
    assert_eq!((offset_of!(SeatLengths, keys), offset_of!(SeatLengths, rolls)), (0, 64));
    assert_eq!((size_of::<State>(), offset_of!(State, position)), (24, 16));
    assert_eq!((size_of::<Overflow>(), offset_of!(State, halted)), (1, 11));
    assert_eq!((offset_of!(State, flags), offset_of!(State, out)), (7, 6));
}
