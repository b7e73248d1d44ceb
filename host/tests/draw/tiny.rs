//! Tiny programs: what is drawn, held against every sheet and list that are admitted.

use crate::checks::{check_against, drawn, routines};
use crate::programs::Program;
use crate::search::{admitted, LAST};
use cesca::BANK;
use reference::Listing;

/// Words without a target.
#[rustfmt::skip]
const PLAIN: [[u8; 2]; 10] = [
    [0x5C, 0x00], // push R0
    [0x80, 0x00], // pop R0
    [0x90, 0x00], // swap R0, R0
    [0x00, 0x00], // mov R0, R0
    [0x00, 0x10], // add R0, R0, R0
    [0x00, 0x50], // and R0, R0, R0
    [0xFC, 0x00], // nop
    [0xA4, 0x00], // jmp R0
    [0xAC, 0x00], // ret
    [0xF8, 0x00], // hlt
];

/// Opcodes with a target: jmp, call, jc, jv.
const AIMED: [u8; 4] = [0xA0, 0xA8, 0xB8, 0xC0];

/// All words that a program is made of.
fn words() -> Vec<[u8; 2]> {
    let aimed = AIMED.into_iter().flat_map(|opcode| (0..=LAST).map(move |to| [opcode, to]));
    PLAIN.into_iter().chain(aimed).collect()
}

/// The program of a number: a word at each address but the last that is used.
fn program(number: usize, words: &[[u8; 2]]) -> Program {
    let mut program = Program { opcodes: [0xF8; BANK], arguments: [0; BANK] };
    for at in 0..LAST.into() {
        let word = words[number / words.len().pow(at as u32) % words.len()];
        [program.opcodes[at], program.arguments[at]] = word;
    }
    program
}

/// What was met among the programs.
#[derive(Debug, Default)]
struct Met {
    drawn: u32,
    refused: u32,
    /// Drawings of several routines.
    several: u32,
    /// Drawings with a mark.
    marked: u32,
    /// Drawings beside which another sheet is admitted too.
    beside: u32,
}

/// Checks that the drawing is among the admitted ones, and gives each routine the least need and each
/// address a mark if one of them does.
fn check_best(drawing: &Listing, all: &[Listing]) {
    assert!(all.contains(drawing), "{drawing:?} wasn't searched for");
    all.iter().for_each(|other| check_against(drawing, other));
}

/// Checks a program's drawing against all that is admitted with it.
fn check(program: &Program, met: &mut Met) {
    let all = admitted(program);
    let Some(drawing) = drawn(program) else {
        assert_eq!(all, [], "27 on {program:?}");
        met.refused += 1;
        return;
    };
    check_best(&drawing, &all);
    met.drawn += 1;
    met.several += u32::from(routines(&drawing).count() > 1);
    met.marked += u32::from(drawing.sheet_words().iter().any(|word| word.settled()));
    met.beside += u32::from(all.len() > 1);
}

/// Checks one in so many of the programs that begin with such a word.
fn check_some(begin: impl Fn([u8; 2]) -> bool, one_in: usize) -> Met {
    let words = words();
    let numbers = 0..words.len().pow(LAST.into());
    let mut met = Met::default();
    for number in numbers.filter(|number| begin(words[number % words.len()])).step_by(one_in) {
        check(&program(number, &words), &mut met);
    }
    met
}

#[test]
fn a_drawing_has_the_least_needs_and_the_most_marks() {
    let met = check_some(|_| true, 17);
    assert!(met.drawn.min(met.refused) >= 200, "{met:?}");
    assert!(met.marked.min(met.beside) >= 20, "{met:?}");
}

#[test]
fn so_has_one_of_several_routines() {
    let met = check_some(|[opcode, target]| opcode == 0xA8 && target > 1, 1);
    assert!(met.drawn.min(met.refused) >= 50, "{met:?}");
    assert!(met.several.min(met.beside) >= 50, "{met:?}");
}
