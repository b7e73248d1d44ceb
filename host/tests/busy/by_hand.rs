//! Pages worked out by hand.

use crate::buffers::Buffers;
use crate::compare::compared;
use crate::memory::{Guarded, Memory};
use cesca::{BusyReport, State, Stop, BANK, PAGE};

/// mov R0, 3; add R0, R0, 255; jnz 1; hlt
const LOOP: [[u8; 2]; 4] = [[0x30, 0x03], [0x10, 0xFF], [0xB4, 0x01], [0xF8, 0x00]];

/// Checks a run of both from an address: how it stops, how often it executes which addresses and no
/// others, which lines stand at the beginning of the page, and what is left in the buffers of the
/// run.
pub fn check(
    before: &Buffers,
    budget: u32,
    pc: u8,
    stop: Stop,
    counts: &[(u8, u32)],
    page: &[&str],
    after: &Memory,
) {
    let start = State { pc, ..State::start() };
    let (answer, found) = compared(before, budget, start);
    let BusyReport { report, lines } = answer.expect("nothing to refuse");
    let steps = counts.iter().map(|(_, count)| count).sum();
    assert_eq!((report.stop, report.steps, lines), (stop, steps, page.len()));
    assert!(page.iter().all(|line| line.len() == 34), "{page:?}");
    let text: String = page.iter().map(|line| format!("{line}\n")).collect();
    let wanted = Buffers { memory: after.clone(), ..before.clone() }.recorded(counts, &text);
    assert!(found == wanted, "{page:?}: {}", found.differences(&wanted));
}

/// Checks a run from address 0 that leaves its buffers as they were.
fn check_words(words: &[[u8; 2]], budget: u32, stop: Stop, counts: &[(u8, u32)], page: &[&str]) {
    let memory = Memory::with_words(words);
    check(&Buffers::old(memory.clone()), budget, 0, stop, counts, page, &memory);
}

#[test]
fn a_loop_comes_first() {
    let page = [
        "01       3 add R0, R0, 255        ",
        "02       3 jnz 1                  ",
        "00       1 mov R0, 3              ",
        "03       1 hlt                    ",
    ];
    for budget in [8, 9, 1_000_000] {
        check_words(&LOOP, budget, Stop::Halted, &[(0, 1), (1, 3), (2, 3), (3, 1)], &page);
    }
}

#[test]
fn a_loop_cut_short() {
    let page = ["00       1 mov R0, 3              ", "01       1 add R0, R0, 255        "];
    check_words(&LOOP, 1, Stop::Spent, &[(0, 1)], &page[..1]);
    check_words(&LOOP, 2, Stop::Spent, &[(0, 1), (1, 1)], &page);
    let page = [
        "01       2 add R0, R0, 255        ",
        "00       1 mov R0, 3              ",
        "02       1 jnz 1                  ",
    ];
    check_words(&LOOP, 4, Stop::Spent, &[(0, 1), (1, 2), (2, 1)], &page);
}

#[test]
fn equal_counts_by_lower_address() {
    // nop at 254 and at 255, jmp 254 at 0: executed in another order than that of the page.
    let mut memory = Memory::with_words(&[[0xA0, 0xFE]]);
    memory.put(254, [0xFC, 0x00]);
    memory.put(255, [0xFC, 0x00]);
    let run = |budget, counts: [u32; 3], page: [&str; 3]| {
        let counts = [(0, counts[0]), (254, counts[1]), (255, counts[2])];
        let before = Buffers::old(memory.clone());
        check(&before, budget, 254, Stop::Spent, &counts, &page, &memory);
    };
    let [jump, first, last] = [
        "00      10 jmp 254                ",
        "FE      10 nop                    ",
        "FF      10 nop                    ",
    ];
    run(30, [10, 10, 10], [jump, first, last]);
    run(31, [10, 11, 10], ["FE      11 nop                    ", jump, last]);
    run(29, [9, 10, 10], [first, last, "00       9 jmp 254                "]);
}

#[test]
fn listing_a() {
    let memory = Memory::with_words(&[
        [0x30, 0x05],
        [0xA8, 0x04],
        [0xF0, 0x00],
        [0xF8, 0x00],
        [0x5E, 0x00],
        [0x10, 0x01],
        [0x88, 0x00],
        [0xAC, 0x00],
    ]);
    let page = [
        "00       1 mov R0, 5              ",
        "01       1 call 4                 ",
        "02       1 mov OUT, R0            ",
        "03       1 hlt                    ",
        "04       1 push R2                ",
        "05       1 add R0, R0, 1          ",
        "06       1 pop R2                 ",
        "07       1 ret                    ",
    ];
    let mut after = memory.clone();
    after.stack.inner_mut()[254] = 2;
    let counts: Vec<(u8, u32)> = (0..8).map(|at| (at, 1)).collect();
    check(&Buffers::old(memory), 1_000, 0, Stop::Halted, &counts, &page, &after);
}

#[test]
fn what_stops_a_run_is_not_counted() {
    let nop = "00       1 nop                    ";
    // nop; jv 0
    check_words(&[[0xFC, 0x00], [0xC0, 0x00]], 9, Stop::Unsettled, &[(0, 1)], &[nop]);
    // nop; mov LCD, 65
    check_words(&[[0xFC, 0x00], [0xE4, 0x41]], 9, Stop::Full, &[(0, 1)], &[nop]);
    // jle 0; mov LCD, 65: before the first step
    check_words(&[[0xDC, 0x00]], 9, Stop::Unsettled, &[], &[]);
    check_words(&[[0xE4, 0x41]], 9, Stop::Full, &[], &[]);
    check_words(&[[0xF8, 0x00]], 0, Stop::Spent, &[], &[]);
}

#[test]
fn a_roll_that_fills() {
    // mov LCD, 65; jmp 0
    let mut memory = Memory::with_words(&[[0xE4, 0x41], [0xA0, 0x00]]);
    memory.roll = Guarded::new([7, 7]);
    let mut after = memory.clone();
    after.roll = Guarded::new([65, 65]);
    let page = ["00       2 mov LCD, 65            ", "01       2 jmp 0                  "];
    check(&Buffers::old(memory), 99, 0, Stop::Full, &[(0, 2), (1, 2)], &page, &after);
}

#[test]
fn a_halted_state_executes_nothing() {
    let before = Buffers::old(Memory::with_words(&LOOP));
    let halted = State { halted: true, ..State::start() };
    for budget in [0, 1, 1_000_000] {
        let (answer, found) = compared(&before, budget, halted);
        let answer = answer.map(|busy| (busy.report.stop, busy.report.steps, busy.lines));
        assert_eq!(answer, Ok((Stop::Halted, 0, 0)));
        assert!(found == before.clone().recorded(&[], ""), "budget {budget}");
    }
}

#[test]
fn all_addresses_once_and_two_of_them_twice() {
    let memory = Memory::with_words(&[[0xFC, 0x00]; BANK]);
    let twice = ["00       2 nop                    ", "01       2 nop                    "];
    let once: Vec<String> =
        (2..=255).map(|at| format!("{at:02X}       1 nop                    ")).collect();
    let page: Vec<&str> = twice.into_iter().chain(once.iter().map(String::as_str)).collect();
    let counts: Vec<(u8, u32)> = (0..=255).map(|at| (at, if at < 2 { 2 } else { 1 })).collect();
    for length in [PAGE, PAGE + 1, 10_000] {
        let before = Buffers::with(memory.clone(), BANK, length);
        check(&before, 258, 0, Stop::Spent, &counts, &page, &memory);
    }
}

#[test]
fn a_second_run_sets_the_counters_anew() {
    let memory = Memory::with_words(&LOOP);
    let (first, after) = compared(&Buffers::old(memory.clone()), 7, State::start());
    let [add, jump] =
        ["01       3 add R0, R0, 255        \n", "02       3 jnz 1                  \n"];
    let mov = "00       1 mov R0, 3              \n";
    let counts = [(0, 1), (1, 3), (2, 3)];
    let wanted = Buffers::old(memory).recorded(&counts, &[add, jump, mov].concat());
    assert!(after == wanted, "{}", after.differences(&wanted));
    let reached = first.expect("nothing to refuse").report.state;
    let (second, last) = compared(&after, 1_000, reached);
    assert_eq!(second.map(|busy| (busy.report.steps, busy.lines)), Ok((1, 1)));
    // The lines of the first run stand behind the one of the second.
    let wanted = after.recorded(&[(3, 1)], "03       1 hlt                    \n");
    assert!(last == wanted, "{}", last.differences(&wanted));
}
