//! Drawings worked out by hand, each beside a word that leaves nothing to draw.

use crate::checks::drawn;
use crate::programs::Program;
use reference::{hindrance, Hindrance, Listing};

/// A program with its drawing.
const STRAIGHT: &str = "
    routine 0 at 0 need 1

    0  8000  5C 00  push R0
    1  8001  25 40  cmp R1, 64
    2  C001  D8 05  jlt 5
    3  C001  9E 00  swap R3, R2
    4  C001  30 01  mov R0, 1
    5  C001  80 00  pop R0
    6  C000  F8 00  hlt
";

/// A loop back to an entry, around which V is settled: the entry isn't marked all the same.
const ENDLESS: &str = "
    routine 0 at 0 need 2
    routine 1 at 3 need 1

    0  8000  10 01  add R0, R0, 1
    1  C000  A8 03  call 3
    2  8000  A0 00  jmp 0
    3  8100  5D 00  push R1
    4  8101  25 09  cmp R1, 9
    5  C101  84 00  pop R1
    6  C100  DC 03  jle 3
    7  C100  AC 00  ret
";

/// Routines numbered by their entries, not by their calls; the need of 0 comes from the deepest.
const NESTED: &str = "
    routine 0 at 0 need 4
    routine 1 at 4 need 0
    routine 2 at 5 need 2
    routine 3 at 255 need 0

    0  8000  5C 00  push R0
    1  8001  A8 05  call 5
    2  8001  A8 04  call 4
    3  8001  F8 00  hlt
    4  8100  AC 00  ret
    5  8200  5D 00  push R1
    6  8201  A8 FF  call 255
    7  8201  84 00  pop R1
    8  8200  AC 00  ret

    255  8300  AC 00  ret
";

/// A mark that is lost late: the second way to 2 comes from behind it.
const LATE: &str = "
    routine 0 at 0 need 0

    0  8000  24 05  cmp R0, 5
    1  C000  FC 00  nop
    2  8000  FC 00  nop
    3  8000  B0 06  jz 6
    4  8000  2C 80  mask IN, 128
    5  8000  A0 02  jmp 2
    6  8000  F8 00  hlt
";

/// Register movs, with a destination and without, mark what stands behind them; a call ends the mark.
const MOVED: &str = "
    routine 0 at 0 need 1
    routine 1 at 6 need 0

    0  8000  28 0F  mask R0, 15
    1  8000  04 00  mov R1, R0
    2  C000  DC 05  jle 5
    3  C000  30 01  mov R0, 1
    4  C000  A8 06  call 6
    5  8000  F8 00  hlt
    6  8100  20 01  mov NONE, R1
    7  C100  C0 06  jv 6
    8  C100  AC 00  ret
";

/// Words that no sheet can put right, each in a program that is drawn with its own word.
#[rustfmt::skip]
const WRONG: [(&str, u8, [u8; 2], Hindrance); 29] = [
    (STRAIGHT, 0, [0xA4, 0x00], Hindrance::JumpRegister),    // jmp R0
    (STRAIGHT, 0, [0x80, 0x00], Hindrance::NothingPushed),   // pop R0
    (STRAIGHT, 0, [0x90, 0x00], Hindrance::NothingPushed),   // swap R0, R0
    (STRAIGHT, 0, [0xFC, 0x00], Hindrance::NothingPushed),   // nop
    (STRAIGHT, 1, [0x29, 0x40], Hindrance::Unsettled),       // mask R1, 64
    (STRAIGHT, 1, [0x05, 0x61], Hindrance::Unsettled),       // or R1, R1, R1
    (STRAIGHT, 1, [0x34, 0x40], Hindrance::Unsettled),       // mov R1, 64
    (STRAIGHT, 2, [0xB0, 0x00], Hindrance::TwoDepths),       // jz 0
    (STRAIGHT, 2, [0xB0, 0x06], Hindrance::TwoDepths),       // jz 6
    (STRAIGHT, 6, [0xAC, 0x00], Hindrance::ReturnFromStart), // ret
    (STRAIGHT, 6, [0xA8, 0x06], Hindrance::TwoRoutines),     // call 6
    (ENDLESS, 2, [0xFC, 0x00], Hindrance::TwoRoutines),      // nop
    (ENDLESS, 3, [0xFC, 0x00], Hindrance::NothingPushed),    // nop
    (ENDLESS, 4, [0x29, 0x09], Hindrance::Unsettled),        // mask R1, 9
    (ENDLESS, 5, [0xFC, 0x00], Hindrance::TwoDepths),        // nop
    (ENDLESS, 6, [0xDC, 0x00], Hindrance::TwoRoutines),      // jle 0
    (ENDLESS, 6, [0xA8, 0x03], Hindrance::Recursion),        // call 3
    (ENDLESS, 6, [0x5D, 0x00], Hindrance::ReturnWithBytes),  // push R1
    (NESTED, 4, [0xA8, 0x05], Hindrance::TwoRoutines),       // call 5
    (NESTED, 6, [0xA8, 0x00], Hindrance::Recursion),         // call 0
    (NESTED, 6, [0xA8, 0x06], Hindrance::TwoRoutines),       // call 6
    (NESTED, 255, [0xFC, 0x00], Hindrance::PastTheEnd),      // nop
    (NESTED, 255, [0xB0, 0xFF], Hindrance::PastTheEnd),      // jz 255
    (NESTED, 255, [0xA8, 0x04], Hindrance::PastTheEnd),      // call 4
    (LATE, 2, [0xC4, 0x03], Hindrance::Unsettled),           // jnv 3
    (LATE, 3, [0xC0, 0x06], Hindrance::Unsettled),           // jv 6
    (LATE, 4, [0xA8, 0x00], Hindrance::Recursion),           // call 0
    (MOVED, 1, [0x04, 0x50], Hindrance::Unsettled),          // and R1, R0, R0
    (MOVED, 6, [0x20, 0x51], Hindrance::Unsettled),          // and NONE, R0, R1
];

/// A routine a number, each calling the next; routine 0 stands first and the last returns.
fn chain(routines: u8) -> Listing {
    let listing = (0..routines - 1).fold(Listing::blank(), |listing, number| {
        let ends = if number == 0 { 0xF8 } else { 0xAC };
        listing.with_word(2 * number, [0xA8, 2 * number + 2]).with_word(2 * number + 1, [ends, 0])
    });
    listing.with_word(2 * routines - 2, [0xAC, 0x00])
}

#[test]
fn these_are_drawn_as_they_stand() {
    let pushes = Listing::pushes([0xF8, 0x00]);
    let texts = [STRAIGHT, ENDLESS, NESTED, LATE, MOVED].map(Listing::read);
    for listing in texts.into_iter().chain([Listing::a(), pushes]) {
        assert_eq!(drawn(&Program::of(&listing)), Some(listing));
    }
}

#[test]
fn one_word_leaves_nothing_to_draw() {
    for (text, at, word, why) in WRONG {
        let program = Program::of(&Listing::read(text).with_word(at, word));
        assert_eq!(drawn(&program), None, "{word:02X?} at {at} of {text}");
        let found = hindrance(&program.opcodes, &program.arguments);
        assert_eq!(found, Some(why), "{word:02X?} at {at} of {text}");
    }
}

#[test]
fn a_register_mov_in_a_comparisons_place_leaves_the_marks() {
    for word in [[0x04, 0x01], [0x20, 0x01]] {
        let moved = Listing::read(STRAIGHT).with_word(1, word); // mov R1, R1; mov NONE, R1
        assert_eq!(drawn(&Program::of(&moved)), Some(moved));
    }
}

#[test]
fn a_jump_ends_the_last_address() {
    let jump = Listing::read(NESTED).with_word(255, [0xA0, 0xFF]);
    assert_eq!(drawn(&Program::of(&jump)), Some(jump));
}

#[test]
fn sixty_four_routines_are_drawn_and_no_more() {
    let drawing = drawn(&Program::of(&chain(64))).expect("a drawing");
    let list: Vec<u8> = (0..64).flat_map(|number| [2 * number, 63 - number]).collect();
    assert_eq!(drawing.list, list);
    assert_eq!(drawn(&Program::of(&chain(65))), None);
    assert_eq!(drawn(&Program::of(&chain(120))), None);
}
