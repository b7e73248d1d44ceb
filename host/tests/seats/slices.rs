//! Slices worked out by hand: how long a seat runs, what ends its turn, and what it leaves.

use crate::board::Board;
use crate::by_hand::{check, check_nobody};
use crate::memory::Guarded;
use crate::room::Room;
use cesca::{State, Stop, Turn, BANK};

/// mov LCD, R0; add R0, R0, 1; jmp 0: 3, 4 and 3 cycles.
const COUNT: [[u8; 2]; 3] = [[0xE8, 0x00], [0x10, 0x01], [0xA0, 0x00]];

#[test]
fn a_slice_is_made_whole() {
    let room = Room::of(&vec![Board::new(&[[0xFC, 0x00]; 256], 0); 2]);
    for slice in [1, 2, 3, 7, 255, 256, 257, 999, 1_000] {
        let cycles = 8 * slice;
        let turn = Turn { seat: 1, next: 0, stop: Stop::Spent, steps: slice, cycles };
        let after = check(&room, slice, 1, turn);
        let mut wanted = room.clone();
        wanted.seats.states[1].pc = slice as u8;
        assert!(after == wanted, "{}", after.differences(&wanted));
    }
}

#[test]
fn a_stop_ends_a_turn_and_keeps_the_seat_from_the_next() {
    let spent = Turn { seat: 0, next: 1, stop: Stop::Spent, steps: 1, cycles: 8 };
    // nop, and then hlt, jle 0 or mov LCD, 1 without a roll.
    for (word, turn, pc) in [
        ([0xF8, 0x00], Turn { stop: Stop::Halted, steps: 2, cycles: 10, ..spent }, 2),
        ([0xDC, 0x00], Turn { stop: Stop::Unsettled, ..spent }, 1),
        ([0xE4, 0x01], Turn { stop: Stop::Full, ..spent }, 1),
    ] {
        let jump = Board::new(&[[0xA0, 0x00]], 0);
        let room = Room::of(&[Board::new(&[[0xFC, 0x00], word], 0), jump]);
        for slice in [2, 3, 1_000] {
            let after = check(&room, slice, 0, turn);
            assert_eq!(after.seats.states[0].pc, pc);
            let last = check(&after, 1, 0, Turn { seat: 1, next: 0, cycles: 3, ..spent });
            assert_eq!(last, after, "jmp 0 comes back to itself");
        }
        let alone = Room::of(&[room.board(0)]);
        check_nobody(&check(&alone, 9, 5, Turn { next: 0, ..turn }));
        let once = check(&room, 1, 0, spent);
        assert_eq!(once.board(0).next_stop().is_none(), turn.stop == Stop::Halted);
    }
}

#[test]
fn hlt_is_the_last_step_of_a_slice() {
    let room = Room::of(&[Board::new(&[[0xF8, 0x00]], 0)]);
    let turn = Turn { seat: 0, next: 0, stop: Stop::Halted, steps: 1, cycles: 2 };
    for slice in [1, 2, 1_000] {
        let after = check(&room, slice, 0, turn);
        assert_eq!(after.seats.states[0], State { pc: 1, halted: true, ..State::start() });
        check_nobody(&after);
    }
}

#[test]
fn a_roll_is_continued_from_turn_to_turn() {
    let other = Board { words: 1, ..Board::new(&COUNT, 2) };
    let room = Room::of(&[Board::new(&COUNT, 3), other, Board::new(&COUNT, 0)]);
    let words =
        |room: &Room| (room.memory.roll.inner().to_vec(), room.seats.roll_positions[..3].to_vec());
    let spent = Turn { seat: 0, next: 1, stop: Stop::Spent, steps: 1, cycles: 3 };
    let one = check(&room, 1, 0, spent);
    assert_eq!(words(&one), (vec![0, 7, 7, 7, 7], vec![1, 1, 0]));
    let two = check(&one, 3, 0, Turn { steps: 3, cycles: 10, ..spent });
    assert_eq!(words(&two), (vec![0, 1, 7, 7, 7], vec![2, 1, 0]));
    // The second seat's roll has a word already, and room for one.
    let full = Turn { stop: Stop::Full, steps: 3, cycles: 10, ..spent };
    let three = check(&two, 1_000, 1, Turn { seat: 1, next: 2, ..full });
    assert_eq!(words(&three), (vec![0, 1, 7, 7, 0], vec![2, 2, 0]));
    // The third has no roll, the second a full one.
    let four = check(&three, 2, 1, Turn { steps: 2, cycles: 7, ..spent });
    assert_eq!(words(&four), (vec![0, 1, 7, 7, 0], vec![2, 2, 0]));
    let five = check(&four, 9, 2, full);
    assert_eq!(words(&five), (vec![0, 1, 2, 7, 0], vec![3, 2, 0]));
    assert_eq!(five.seats.states[0].regs[0], 3);
    check_nobody(&five);
}

#[test]
fn each_seat_has_its_own_keys() {
    // mov R0, IN; mov IN, Ack; mov R1, IN; mov IN, Ack; hlt: 4, 3, 4, 3 and 2 cycles
    let words = [[0x40, 0x00], [0x50, 0x00], [0x44, 0x00], [0x50, 0x00], [0xF8, 0x00]];
    let board = |keys: &[u8], position| {
        let mut board = Board::new(&words, 0);
        board.memory.keys = Guarded::new(keys.iter().copied());
        board.state.position = position;
        board
    };
    let boards = [board(&[1], 0), board(&[], 0), board(&[2, 3, 4], 1), board(&[5, 6], 0)];
    let mut room = Room::of(&boards);
    for seat in 0..4 {
        let next = (seat + 1) % 4;
        let turn = Turn { seat, next, stop: Stop::Halted, steps: 5, cycles: 16 };
        room = check(&room, 9, seat, turn);
    }
    let found = room.seats.states.map(|state| (state.regs[0], state.regs[1], state.position));
    assert_eq!(found[..4], [(1, 0, 1), (0, 0, 0), (3, 4, 3), (5, 6, 2)]);
    assert_eq!(room.memory.keys.inner(), [1, 2, 3, 4, 5, 6]);
}

/// Writes to data 0 and 255, to the stack at both its ends and to the roll: mov [0], R1;
/// mov [255], R2; push R1 at SP 1; push R2; push R1; mov LCD, R2; hlt.
const WRITES: [[u8; 2]; 7] = [
    [0x55, 0x00],
    [0x56, 0xFF],
    [0x5D, 0x00],
    [0x5E, 0x00],
    [0x5D, 0x00],
    [0xEA, 0x00],
    [0xF8, 0x00],
];

#[test]
fn a_neighbours_bytes_are_kept() {
    let board = |seat: u8| {
        let mut board = Board { words: 1, ..Board::new(&WRITES, 2) };
        board.memory.ram = Guarded::new([0x10 + seat; BANK]);
        board.memory.stack = Guarded::new([0x20 + seat; BANK]);
        board.state = State { regs: [0, 0xA1, 0xB2, 0], sp: 1, ..State::start() };
        board
    };
    let boards = [0, 1, 2].map(board);
    for seat in 0..3 {
        let mut wanted = boards.clone();
        let Board { memory, state, words } = &mut wanted[seat];
        let (ram, stack) = (memory.ram.inner_mut(), memory.stack.inner_mut());
        (ram[0], ram[255]) = (0xA1, 0xB2);
        (stack[0], stack[255], stack[254]) = (0xA1, 0xB2, 0xA1);
        memory.roll.inner_mut()[1] = 0xB2;
        *words = 2;
        *state = State { pc: 7, sp: 254, halted: true, ..*state };
        // 4, 4, 5, 5, 5, 3 and 2 cycles.
        let next = (seat + 1) % 3;
        let turn = Turn { seat, next, stop: Stop::Halted, steps: 7, cycles: 28 };
        let after = check(&Room::of(&boards), 1_000, seat, turn);
        let wanted = Room::of(&wanted);
        assert!(after == wanted, "{}", after.differences(&wanted));
    }
}

#[test]
fn each_seat_has_its_own_program() {
    // mov R0 with the seat's number and 10 more, again and again.
    let boards: Vec<Board> = (0..8).map(|seat| Board::new(&[[0x30, 10 + seat]; 256], 0)).collect();
    let mut room = Room::of(&boards);
    for seat in 0..8 {
        let next = (seat + 1) % 8;
        let turn = Turn { seat, next, stop: Stop::Spent, steps: 2, cycles: 6 };
        room = check(&room, 2, seat, turn);
    }
    let found = room.seats.states.map(|state| (state.regs[0], state.pc));
    assert_eq!(found, [10, 11, 12, 13, 14, 15, 16, 17].map(|byte| (byte, 2)));
}
