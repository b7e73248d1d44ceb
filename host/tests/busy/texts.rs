//! The instruction's text in a line: left-aligned, as it is printed, with neither free bits nor
//! registers that its mnemonic doesn't show.

use crate::buffers::Buffers;
use crate::by_hand::check;
use crate::compare::compared;
use crate::memory::{Guarded, Memory};
use cesca::{decode, print, State, Stop, BANK, LINE};

/// The first and the last of the 23 columns of the text, from 0, the last one left out.
const COLUMNS: [usize; 2] = [11, 34];

#[test]
fn texts_are_left_aligned_without_what_is_hidden() {
    let mut memory = Memory::with_words(&[
        [0x23, 0x31], // addc NONE, R3, R1
        [0x06, 0x73], // not R1, R2, with R3 for Rb
        [0x2F, 0x80], // mask IN, 128, free bits set
        [0x57, 0x40], // mov [64], R3
        [0x59, 0xF3], // mov [R3], R1, free bits set
        [0x5F, 0xFF], // push R3, free bits set
        [0x8B, 0xFF], // pop R2, free bits set
        [0xE3, 0xFF], // mov LCDcmd, 255, free bits set
        [0xFB, 0xFF], // hlt, free bits set
    ]);
    memory.roll = Guarded::new([7, 7]);
    let page = [
        "00       1 addc NONE, R3, R1      ",
        "01       1 not R1, R2             ",
        "02       1 mask IN, 128           ",
        "03       1 mov [64], R3           ",
        "04       1 mov [R3], R1           ",
        "05       1 push R3                ",
        "06       1 pop R2                 ",
        "07       1 mov LCDcmd, 255        ",
        "08       1 hlt                    ",
    ];
    let mut after = memory.clone();
    after.ram.inner_mut()[0] = 255;
    after.roll = Guarded::new([511, 7]);
    let counts: Vec<(u8, u32)> = (0..9).map(|at| (at, 1)).collect();
    check(&Buffers::old(memory), 9, 0, Stop::Halted, &counts, &page, &after);
}

/// Runs one step of a word, with V settled and a roll that has room, and yields the page's line.
fn line(word: [u8; 2]) -> String {
    let mut memory = Memory::with_words(&[word]);
    memory.roll = Guarded::new([7]);
    let mut start = State::start();
    start.flags.v = cesca::Overflow::Clear;
    let (answer, found) = compared(&Buffers::with(memory, BANK, 9_000), 1, start);
    assert_eq!(answer.map(|busy| busy.lines), Ok(1), "{word:02X?}");
    String::from_utf8(found.page.inner()[..LINE].to_vec()).expect("ASCII")
}

#[test]
fn every_instruction_is_spelled_as_it_is_printed() {
    // Each opcode, with arguments that have each function, register and free bit.
    for opcode in 0..=255 {
        for argument in (0..=255).step_by(17) {
            let word = [opcode, argument];
            let line = line(word);
            let text = print(decode(word)).expect("registers and functions that there are");
            assert_eq!(line[COLUMNS[0]..COLUMNS[1]], format!("{text:<23}"), "{word:02X?}");
            assert_eq!((&line[..COLUMNS[0]], &line[COLUMNS[1]..]), ("00       1 ", "\n"));
        }
    }
}
