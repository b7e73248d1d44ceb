//! After a list of turns each seat is as if it had run alone, with the sum of its slices as the
//! budget.

use crate::board::Board;
use crate::memory::Guarded;
use crate::random::{each_case, Random};
use crate::random_rooms::{busy_room, given, slice};
use crate::room::Room;
use cesca::{turn, Lent, Refusal, Report, State, Stop, MOST_SEATS, MOST_SLICE, MOST_STEPS};

/// The rooms with a list of turns.
const ROOMS: u64 = 3_000;

/// The sums up to which the reference runs a seat too.
const SMALL: u64 = 20_000;

/// A machine: what a run reports, or why it is refused.
type Machine = fn(Lent<'_>, u32, State) -> Result<Report, Refusal>;

/// What runs one after another come to.
#[derive(Clone, Copy, Debug, Default, PartialEq, Eq)]
struct Sums {
    /// What they might make at most.
    budget: u64,
    steps: u64,
    cycles: u64,
    /// The stop of the last, if there was one.
    stop: Option<Stop>,
}

impl Sums {
    /// The sums with one more run.
    fn and(self, budget: u32, stop: Stop, steps: u32, cycles: u32) -> Sums {
        Sums {
            budget: self.budget + u64::from(budget),
            steps: self.steps + u64::from(steps),
            cycles: self.cycles + u64::from(cycles),
            stop: Some(stop),
        }
    }
}

/// What a board comes to by itself, and the sums of its runs: as few as make up the budget, each
/// with what the one before left of the roll.
fn alone(machine: Machine, board: &Board, budget: u64) -> (Board, Sums) {
    let (mut board, mut sums) = (board.clone(), Sums::default());
    while sums.budget < budget && sums.stop.is_none_or(|stop| stop == Stop::Spent) {
        let piece = (budget - sums.budget).min(u64::from(MOST_STEPS)) as u32;
        let start = board.state;
        let report = machine(board.lend(), piece, start).expect("nothing to refuse");
        sums = sums.and(piece, report.stop, report.steps, report.cycles);
        (board.state, board.words) = (report.state, board.words + report.words);
    }
    (board, sums)
}

/// Makes so many turns of a room, slice and next seat being told, and sums up each seat's.
fn play(room: &Room, turns: u32, mut call: impl FnMut(usize) -> (u32, usize)) -> (Room, Vec<Sums>) {
    let (mut room, mut sums) = (room.clone(), vec![Sums::default(); MOST_SEATS]);
    let mut next = 0;
    for _ in 0..turns {
        let (slice, from) = call(next);
        let (answer, after) = room.turned(turn, slice, from);
        if let Some(turn) = answer.expect("nothing to refuse") {
            let seat = &mut sums[turn.seat];
            *seat = seat.and(slice, turn.stop, turn.steps, turn.cycles);
            next = turn.next;
        }
        room = after;
    }
    sums.truncate(room.count);
    (room, sums)
}

/// Checks that each seat of a room is as a machine leaves it alone.
fn check(machine: Machine, before: &Room, after: &Room, sums: &[Sums]) {
    for (seat, sums) in sums.iter().enumerate() {
        let (board, own) = alone(machine, &before.board(seat), sums.budget);
        // A run alone may stop before its budget is given out in pieces.
        let own = Sums { budget: sums.budget, ..own };
        assert_eq!(own, *sums, "seat {seat} of {before:?}");
        let found = after.board(seat);
        assert!(found == board, "seat {seat}: {found:?}, alone {board:?}");
    }
}

#[test]
fn seats_are_as_if_they_were_alone() {
    // Seats that had a good many steps to make, those of them that a stop kept from all, and the
    // rooms that the reference checked too.
    let (mut long, mut kept, mut checked) = (0, 0, 0);
    each_case(ROOMS, |random: &mut Random| {
        let before = busy_room(random);
        let turns = random.pick(&[5, 20, 60]);
        let (after, sums) = play(&before, turns, |next| {
            let from = if random.once_in(4) { given(random) } else { next };
            (slice(random), from)
        });
        check(cesca::run, &before, &after, &sums);
        if sums.iter().all(|sums| sums.budget <= SMALL) {
            check(reference::run, &before, &after, &sums);
            checked += 1;
        }
        let ended = |sums: &&Sums| sums.stop != Some(Stop::Spent);
        let many = sums.iter().filter(|sums| sums.steps > 0 && sums.budget > 20);
        long += many.clone().count();
        kept += many.filter(ended).count();
    });
    assert!(long >= 5_000 && kept >= 1_000, "{long}, of which {kept}");
    assert!(checked >= ROOMS / 2, "the reference checked {checked} rooms");
}

/// A count in three bytes of data, ten steps a time; each 256th time, five steps more write the
/// second byte to the roll, and each 65,536th time there are three more.
const COUNT: &[u8] = b"loop: mov R0, [0]\ninc R0\nmov [0], R0\njnz plain\nmov R1, [1]\ninc R1\n\
    mov [1], R1\nmov LCD, R1\njnz plain\nmov R2, [2]\ninc R2\nmov [2], R2\nplain: push R0\n\
    call double\npop R3\njmp loop\ndouble: add R1, R0, R0\nret\n";

/// Keys added up, ten steps a key.
const KEYS: &[u8] = b"loop: mov R0, IN\nmov IN, Ack\nadd R1, R1, R0\naddc R2, R2, R1\njv next\n\
    next: rol R3, R2\nxor R3, R3, R0\nmov [R3], R1\nmov OUT, R2\njmp loop\n";

/// A board with a source's program, so many keys and a roll of so many words.
fn of_source(source: &[u8], keys: u32, roll: usize) -> Board {
    let banks = cesca::assemble(source).expect("a source");
    let mut board = Board::new(&[], roll);
    board.memory.opcodes = Guarded::new(banks.opcodes);
    board.memory.arguments = Guarded::new(banks.arguments);
    board.memory.keys = Guarded::new((0..keys).map(|key| (key % 251) as u8));
    board
}

#[test]
fn seats_are_as_if_they_were_alone_above_a_million_steps() {
    let halting = of_source(b"mov R0, 200\nloop: dec R0\njnz loop\nhlt\n", 0, 0);
    let boards = [of_source(COUNT, 0, 2_000), of_source(KEYS, 150_000, 0), halting];
    let before = Room::of(&boards);
    let (after, sums) = play(&before, 2 * 1_100 + 1, |next| (MOST_SLICE, next));
    let steps: Vec<u64> = sums.iter().map(|sums| sums.steps).collect();
    // mov, 200 times dec and jnz, hlt
    assert_eq!(steps, [1_100_000, 1_100_000, 402]);
    assert!(sums[0].steps > u64::from(MOST_STEPS));
    assert_eq!(after.seats.states[1].position, 110_000);
    // The 428th word is step 427 * 2,565 + 3 + 2,558, and the next would be 2,565 steps later.
    assert_eq!(after.seats.roll_positions[0], 428);
    let roll = after.memory.roll.inner().iter().zip(1u16..);
    assert!(roll.clone().take(428).all(|(word, at)| *word == at % 256));
    assert!(roll.clone().skip(428).all(|(word, _)| *word == 7));
    for machine in [cesca::run as Machine, reference::run] {
        check(machine, &before, &after, &sums);
    }
}
