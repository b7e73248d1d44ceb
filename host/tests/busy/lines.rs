//! Counts of every width, up to one that fills its columns.

use crate::buffers::Buffers;
use crate::by_hand::check;
use crate::memory::Memory;
use cesca::Stop;

/// The line of `jmp 0` by how often it executed.
const JUMPS: [(u32, &str); 14] = [
    (1, "00       1 jmp 0                  "),
    (9, "00       9 jmp 0                  "),
    (10, "00      10 jmp 0                  "),
    (99, "00      99 jmp 0                  "),
    (100, "00     100 jmp 0                  "),
    (507, "00     507 jmp 0                  "),
    (999, "00     999 jmp 0                  "),
    (1_000, "00    1000 jmp 0                  "),
    (9_999, "00    9999 jmp 0                  "),
    (10_203, "00   10203 jmp 0                  "),
    (99_999, "00   99999 jmp 0                  "),
    (100_000, "00  100000 jmp 0                  "),
    (999_999, "00  999999 jmp 0                  "),
    (1_000_000, "00 1000000 jmp 0                  "),
];

#[test]
fn a_count_is_right_aligned_in_seven_columns() {
    let memory = Memory::with_words(&[[0xA0, 0x00]]);
    for (count, line) in JUMPS {
        let before = Buffers::old(memory.clone());
        check(&before, count, 0, Stop::Spent, &[(0, count)], &[line], &memory);
    }
}

#[test]
fn counts_of_several_widths() {
    // mov R0, 200; call 6; add R0, R0, 255; jnz 1; mov OUT, R0; hlt;
    // push R1; mov R1, 250; add R1, R1, 255; jnz 8; pop R1; ret
    let memory = Memory::with_words(&[
        [0x30, 0xC8],
        [0xA8, 0x06],
        [0x10, 0xFF],
        [0xB4, 0x01],
        [0xF0, 0x00],
        [0xF8, 0x00],
        [0x5D, 0x00],
        [0x34, 0xFA],
        [0x15, 0xFF],
        [0xB4, 0x08],
        [0x84, 0x00],
        [0xAC, 0x00],
    ]);
    let page = [
        "08   50000 add R1, R1, 255        ",
        "09   50000 jnz 8                  ",
        "01     200 call 6                 ",
        "02     200 add R0, R0, 255        ",
        "03     200 jnz 1                  ",
        "06     200 push R1                ",
        "07     200 mov R1, 250            ",
        "0A     200 pop R1                 ",
        "0B     200 ret                    ",
        "00       1 mov R0, 200            ",
        "04       1 mov OUT, R0            ",
        "05       1 hlt                    ",
    ];
    let often = [8, 9].map(|at| (at, 50_000));
    let rounds = [1, 2, 3, 6, 7, 10, 11].map(|at| (at, 200));
    let once = [0, 4, 5].map(|at| (at, 1));
    let counts = [&often[..], &rounds, &once].concat();
    let mut after = memory.clone();
    after.stack.inner_mut()[254] = 2;
    check(&Buffers::old(memory), 1_000_000, 0, Stop::Halted, &counts, &page, &after);
}
