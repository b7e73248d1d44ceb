//! Boards: runs that go on, rolls that fill up, resets and refusals.

use crate::pair::Pair;
use crate::random::{each_case, Random};
use cesca::{Board, Listing, Refusal, Report, State, Stop, BANK, MOST_STEPS, SHEET};

/// A board with these words from address 0, hlt everywhere else.
fn board(words: &[[u8; 2]]) -> Board {
    let (mut opcodes, mut arguments) = ([0xF8; BANK], [0; BANK]);
    for (at, [opcode, argument]) in words.iter().enumerate() {
        (opcodes[at], arguments[at]) = (*opcode, *argument);
    }
    let listing = Listing::from_parts(opcodes, arguments, [0; SHEET], &[0, 0]);
    Board::new(&listing.expect("a routine"))
}

/// A board that writes to everything: mov [9], R0; push R1; mov LCD, 5; mov IN, Ack; jmp 0.
fn busy() -> Board {
    board(&[[0x54, 0x09], [0x5D, 0x00], [0xE4, 0x05], [0x50, 0x00], [0xA0, 0x00]])
}

/// Keys that are never too few for a position reached with them.
fn keys(random: &mut Random) -> Vec<u8> {
    let length = random.below(9) as usize;
    random.bytes(length)
}

#[test]
fn a_board_does_what_the_calls_do() {
    let mut stops = [0; 4];
    let mut refusals = [0; 2];
    each_case(20_000, |random| {
        let words = random.pick(&[0, 1, 3, 3, 20]);
        let (mut pair, keys) = (Pair::random(random, words), keys(random));
        for _ in 0..1 + random.below(8) {
            let fewer = random.below(keys.len() as u32 + 1) as usize;
            let keys = if random.once_in(8) { &keys[..fewer] } else { &keys[..] };
            let most = random.pick(&[2, 40, 300]);
            let spoiled = random.once_in(16);
            let budget = if spoiled { MOST_STEPS + 1 } else { random.below(most) };
            match pair.run(keys, budget) {
                Ok(report) => stops[report.stop as usize] += 1,
                Err(refusal) => refusals[usize::from(refusal.number()) - 18] += 1,
            }
            if random.once_in(6) {
                pair.reset();
            }
        }
    });
    assert!(stops.into_iter().chain(refusals).all(|count| count >= 100), "{stops:?} {refusals:?}");
}

#[test]
fn a_run_in_two_parts_is_the_run_in_one() {
    each_case(20_000, |random| {
        let (whole, keys) = (Pair::random(random, 10_000), keys(random));
        let (mut whole, mut parts) = (whole.board.clone(), whole.board);
        let most = random.pick(&[4, 40, 400]);
        let (first, second) = (random.below(most), 1 + random.below(most));
        let wanted = whole.run(&keys, first + second).expect("nothing to refuse");
        let head = parts.run(&keys, first).expect("nothing to refuse");
        let tail = parts.run(&keys, second).expect("nothing to refuse");
        let (steps, cycles) = (head.steps + tail.steps, head.cycles + tail.cycles);
        let joined = Report { steps, cycles, words: head.words + tail.words, ..tail };
        assert_eq!(joined, wanted, "{first} steps and {second}");
        assert!(parts == whole, "{first} steps and {second}");
    });
}

#[test]
fn a_step_is_a_run_of_one() {
    let (mut steps, mut runs) = (busy(), busy());
    for _ in 0..20 {
        let found = steps.step(&[1, 2]);
        assert_eq!(found, runs.run(&[1, 2], 1));
        assert_eq!(found.map(|report| (report.steps, report.stop)), Ok((1, Stop::Spent)));
        assert_eq!(steps, runs);
    }
}

#[test]
fn a_busy_run_counts_its_own_steps_alone() {
    let mut board = busy();
    let first = board.run_busy(&[1, 2], 7).expect("nothing to refuse");
    assert_eq!((first.report.steps, &first.counters[..6]), (7, &[2, 2, 1, 1, 1, 0][..]));
    let second = board.run_busy(&[1, 2], 2).expect("nothing to refuse");
    assert_eq!((second.report.steps, &second.counters[..6]), (2, &[0, 0, 1, 1, 0, 0][..]));
    let page = "02       1 mov LCD, 5             \n03       1 mov IN, Ack            \n";
    assert_eq!(second.page, page);
    assert_eq!(board.roll(), [5, 5]);
}

#[test]
fn a_new_board() {
    let board = busy();
    assert_eq!(*board.state(), State::start());
    assert_eq!((board.data(), board.stack(), board.roll()), (&[0; 256], &[0; 256], &[][..]));
}

#[test]
fn the_roll_goes_on_and_is_full_at_its_end() {
    let mut board = busy().with_roll(3);
    let mut run = |budget| board.run(&[], budget).map(|report| (report.stop, report.words));
    assert_eq!(run(3), Ok((Stop::Spent, 1)));
    assert_eq!(run(5), Ok((Stop::Spent, 1)));
    assert_eq!(run(100), Ok((Stop::Full, 1)));
    assert_eq!(run(100), Ok((Stop::Full, 0)));
    assert_eq!((board.roll(), board.state().pc), (&[5, 5, 5][..], 2));
    board = board.with_roll(1);
    assert_eq!(board.roll(), []);
    assert_eq!(board.run(&[], 100).map(|report| (report.stop, report.words)), Ok((Stop::Full, 1)));
}

#[test]
fn a_roll_has_a_thousand_words_unless_it_is_told() {
    let mut board = board(&[[0xE0, 0x01], [0xA0, 0x00]]); // mov LCDcmd, 1; jmp 0
    let report = board.run(&[], MOST_STEPS).expect("nothing to refuse");
    assert_eq!((report.stop, report.words, Board::ROLL), (Stop::Full, 1_000, 1_000));
    assert_eq!(board.roll(), [257; 1_000]);
}

#[test]
fn a_reset_keeps_data_and_stack() {
    let mut board = busy();
    board.data_mut()[9] = 77;
    board.data_mut()[10] = 88;
    board.run(&[1, 2], 100).expect("nothing to refuse");
    let (data, stack) = (*board.data(), *board.stack());
    assert_eq!((data[9], data[10]), (0, 88));
    assert_ne!((*board.state(), board.roll().len()), (State::start(), 0));
    board.reset();
    assert_eq!((*board.state(), board.roll()), (State::start(), &[][..]));
    assert_eq!((*board.data(), *board.stack()), (data, stack));
    let report = board.run(&[], 5).expect("the position is 0 again");
    assert_eq!((report.words, board.roll()), (1, &[5][..]));
}

#[test]
fn a_refusal_changes_nothing() {
    let mut board = busy();
    board.run(&[1, 2], 10).expect("nothing to refuse");
    assert_eq!(board.state().position, 2);
    let before = board.clone();
    for (keys, budget, number) in [
        (&[1][..], 10, 18),
        (&[], 1_000_001, 18),
        (&[1, 2], 1_000_001, 19),
        (&[1, 2], u32::MAX, 19),
    ] {
        assert_eq!(board.run(keys, budget), Err(Refusal::of_call(number)));
        assert_eq!(board, before);
    }
    assert_eq!(board.step(&[]), Err(Refusal::of_call(18)));
    assert_eq!(board, before);
}

#[test]
fn a_halted_board_stays() {
    let mut board = board(&[[0x34, 0x07]]); // mov R1, 7
    let halted = board.run(&[], 10).map(|report| (report.stop, report.steps));
    assert_eq!(halted, Ok((Stop::Halted, 2)));
    let again = board.run(&[], 10).map(|report| (report.stop, report.steps));
    assert_eq!(again, Ok((Stop::Halted, 0)));
    assert_eq!((board.state().regs, board.state().pc), ([0, 7, 0, 0], 2));
}
