//! The words of each refusal, and that it leaves what was lent.

use super::explain::{explained, Call, Sizes};
use super::*;
use cesca_types::{BANK, MOST_SEATS};

/// What a turn is called with, all buffers filled with `nop`s or numbers of their own.
#[derive(Clone, Debug, PartialEq)]
struct Case {
    count: usize,
    slice: u32,
    opcodes: Vec<u8>,
    arguments: Vec<u8>,
    keys: Vec<u8>,
    ram: Vec<u8>,
    stack: Vec<u8>,
    rolls: Vec<u16>,
    lengths: SeatLengths,
    seats: Seats,
}

impl Case {
    /// So many seats, with 1 key and 2 words of roll each, and nothing to refuse.
    fn new(count: usize) -> Case {
        Case {
            count,
            slice: 1,
            opcodes: vec![0xFC; BANK * count],
            arguments: vec![1; BANK * count],
            keys: vec![2; count],
            ram: vec![3; BANK * count],
            stack: vec![4; BANK * count],
            rolls: vec![5; 2 * count],
            lengths: SeatLengths { keys: [1; MOST_SEATS], rolls: [2; MOST_SEATS] },
            seats: Seats::start(),
        }
    }

    /// The outcome of the turn.
    fn turn(&mut self) -> Result<Option<Turn>, Refusal> {
        let lent = Lent {
            opcodes: &self.opcodes,
            arguments: &self.arguments,
            keys: &self.keys,
            ram: &mut self.ram,
            stack: &mut self.stack,
            roll: &mut self.rolls,
        };
        turn(self.count, self.slice, 0, lent, self.lengths, &mut self.seats)
    }
}

/// Checks how the turn of so many seats is refused once something is made wrong, and that it leaves
/// what was lent.
fn check(count: usize, wrong: impl Fn(&mut Case), shown: &str) {
    let mut case = Case::new(count);
    wrong(&mut case);
    let before = case.clone();
    let refusal = case.turn().expect_err(shown);
    assert_eq!((refusal.to_string().as_str(), refusal.place()), (shown, None));
    assert_eq!(case, before, "{shown}");
}

#[test]
fn what_is_right_is_not_refused() {
    for count in 1..=MOST_SEATS {
        let turn = Case::new(count).turn().expect("nothing to refuse").expect("a seat ran");
        assert_eq!((turn.seat, turn.next, turn.steps), (0, 1 % count, 1));
    }
}

#[test]
fn seats_and_slices() {
    for (count, told) in [(0, "0"), (9, "9"), (usize::MAX, "18446744073709551615")] {
        let shown = format!("28: the number of seats is {told}, not 1 to 8");
        check(1, |case| (case.count, case.slice) = (count, 0), &shown);
    }
    check(8, |case| case.slice = 0, "29: the slice is 0 steps, not 1 to 1,000");
    check(1, |case| case.slice = 1_001, "29: the slice is 1001 steps, not 1 to 1,000");
    let most = "29: the slice is 4294967295 steps, not 1 to 1,000";
    check(1, |case| (case.slice, case.seats.states[0].position) = (u32::MAX, 9), most);
}

#[test]
fn banks_that_are_too_short_or_too_long() {
    let two = |name: &str, size: &str| {
        format!("17: the {name} bank's buffer has {size}, not 256 for each of 2 seats")
    };
    check(2, |case| case.opcodes.clear(), &two("opcode", "0 bytes"));
    check(2, |case| case.arguments.truncate(1), &two("argument", "1 byte"));
    check(2, |case| case.ram.push(0), &two("data", "513 bytes"));
    check(2, |case| case.stack.truncate(511), &two("stack", "511 bytes"));
    let one = "17: the data bank's buffer has 512 bytes, not 256 for 1 seat";
    check(1, |case| case.ram.resize(512, 0), one);
    let first = |case: &mut Case| (case.ram, case.stack, case.keys) = Default::default();
    check(2, first, &two("data", "0 bytes"));
}

#[test]
fn lengths_that_do_not_add_up() {
    let keys = |sum: &str, size: usize| {
        format!("17: the lengths of the keys add up to {sum}, and their buffer has {size}")
    };
    check(7, |case| case.keys.push(0), &keys("7", 8));
    check(3, |case| case.lengths.keys[1] = 0, &keys("2", 3));
    check(2, |case| case.lengths.keys = [usize::MAX; 8], &keys("36893488147419103230", 2));
    // What 64 bits keep of this sum is 2.
    let wraps = |case: &mut Case| case.lengths.keys[..2].copy_from_slice(&[usize::MAX, 3]);
    check(2, wraps, &keys("18446744073709551618", 2));
    let all = |case: &mut Case| (case.lengths.keys, case.rolls) = ([usize::MAX; 8], Vec::new());
    check(8, all, &keys("147573952589676412920", 8));
    let rolls = "17: the lengths of the rolls add up to 4, and their buffer has 3";
    check(2, |case| case.rolls.truncate(3), rolls);
    let after = |case: &mut Case| (case.rolls, case.seats.roll_positions[0]) = (vec![5; 3], 9);
    check(2, after, rolls);
}

#[test]
fn positions_past_their_end() {
    // The positions of the seats before it are at their ends.
    let keys = "18: seat 2's key position is 2, past the end of its 1 key";
    let at_ends = |case: &mut Case| {
        case.seats.roll_positions = [2; MOST_SEATS];
        for (seat, position) in [(0, 1), (1, 1), (2, 2)] {
            case.seats.states[seat].position = position;
        }
    };
    check(3, at_ends, keys);
    let rolls = "18: seat 3's roll position is 5, past the end of its 4 words";
    let longer = |case: &mut Case| {
        case.lengths.rolls[3] = 4;
        case.rolls.extend([5; 2]);
        case.seats.roll_positions[3] = 5;
    };
    check(8, longer, rolls);
    let most = "18: seat 0's key position is 18446744073709551615, past the end of its 1 key";
    check(1, |case| case.seats.states[0].position = usize::MAX, most);
    let none = |case: &mut Case| {
        (case.lengths.rolls[1], case.seats.roll_positions[1]) = (0, 1);
        case.rolls.truncate(4);
        case.seats.states[2].position = 7;
    };
    check(3, none, "18: seat 1's roll position is 1, past the end of its 0 words");
}

#[test]
fn positions_at_the_end_and_places_past_the_last_seat_are_not_refused() {
    let mut case = Case::new(2);
    for seat in 0..MOST_SEATS {
        let past = usize::from(seat >= 2) * 5;
        case.seats.states[seat].position = 1 + past;
        case.seats.roll_positions[seat] = 2 + past;
    }
    case.lengths.keys[2..].fill(usize::MAX);
    case.lengths.rolls[2..].fill(usize::MAX);
    let before = case.seats;
    assert_eq!(case.turn().expect("nothing to refuse").map(|turn| turn.seat), Some(0));
    assert_eq!(case.seats.states[1..], before.states[1..]);
    assert_eq!(case.seats.roll_positions, before.roll_positions);
}

#[test]
fn where_nothing_fits_the_general_words_stay() {
    let Case { count, slice, lengths, seats, .. } = Case::new(2);
    let (banks, keys) = ([0; 2 * BANK], [0; 2]);
    let (mut ram, mut stack, mut roll) = (banks, banks, [0; 4]);
    let lent = Lent {
        opcodes: &banks,
        arguments: &banks,
        keys: &keys,
        ram: &mut ram,
        stack: &mut stack,
        roll: &mut roll,
    };
    let call = Call { count, slice, sizes: Sizes::of(&lent), lengths, seats: &seats };
    for number in 1..=29 {
        let refusal = Refusal::of_call(number);
        assert_eq!(explained(refusal.clone(), &call), Err(refusal));
    }
}
