//! Drawings worked out by hand.

use super::{draw, hindrance, Hindrance};
use crate::Listing;
use cesca_types::{MOST_LIST, SHEET};

/// What is drawn for a listing's banks into old buffers, the list without the zeros behind it.
fn drawn(listing: &Listing) -> Result<(Vec<u8>, Vec<u8>), u8> {
    let (mut sheet, mut list) = (vec![0x55; SHEET], vec![0x55; MOST_LIST]);
    let routines = draw(&listing.opcodes, &listing.arguments, &mut sheet, &mut list)?;
    let behind = list.split_off(2 * routines);
    assert!(behind.iter().all(|byte| *byte == 0), "{behind:?}");
    Ok((sheet, list))
}

/// Checks that a listing's own sheet and list are drawn for its banks.
fn check(listing: &Listing) {
    assert_eq!(drawn(listing), Ok((listing.sheet.clone(), listing.list.clone())));
}

/// Checks why nothing is drawn for a program, whose sheet words say nothing.
fn check_none(text: &str, why: Hindrance) {
    let Listing { opcodes, arguments, .. } = Listing::read(text);
    assert_eq!(hindrance(&opcodes, &arguments), Some(why), "{text}");
}

#[test]
fn listing_a_has_the_sheet_and_list_of_the_paper() {
    check(&Listing::a());
}

#[test]
fn a_full_stack_is_drawn() {
    check(&Listing { list: vec![0, 255], ..Listing::pushes([0xF8, 0x00]) });
}

#[test]
fn needs_are_the_least() {
    let greedy = Listing::a().with_list(&[0, 255, 4, 254]);
    assert_eq!(drawn(&greedy), Ok((greedy.sheet.clone(), vec![0, 2, 4, 1])));
}

#[test]
fn routines_are_numbered_by_their_entries() {
    check(&Listing::read(
        "
        routine 0 at 0 need 3
        routine 1 at 3 need 1
        routine 2 at 5 need 0
        routine 3 at 6 need 2

        0  8000  A8 06  call 6
        1  8000  A8 05  call 5
        2  8000  F8 00  hlt
        3  8100  A8 05  call 5
        4  8100  AC 00  ret
        5  8200  AC 00  ret
        6  8300  A8 03  call 3
        7  8300  AC 00  ret
        ",
    ));
}

#[test]
fn marks_are_lost_around_a_loop_and_at_entries() {
    check(&Listing::read(
        "
        routine 0 at 0 need 0

        0  8000  24 05  cmp R0, 5
        1  C000  D8 00  jlt 0
        2  8000  30 01  mov R0, 1
        3  8000  B0 06  jz 6
        4  8000  2C 01  mask IN, 1
        5  8000  A0 02  jmp 2
        6  8000  F8 00  hlt
        ",
    ));
}

#[test]
fn what_no_sheet_can_put_right() {
    use Hindrance::*;
    check_none("0 0000 A4 00 jmp R0", JumpRegister);
    check_none("0 0000 80 00 pop R0", NothingPushed);
    check_none("0 0000 90 00 swap R0, R0", NothingPushed);
    check_none("0 0000 AC 00 ret", ReturnFromStart);
    check_none("0 0000 A0 FF jmp 255\n255 0000 FC 00 nop", PastTheEnd);
    check_none("0 0000 C0 00 jv 0\n1 0000 F8 00 hlt", Unsettled);
    check_none("0 0000 A8 00 call 0\n1 0000 F8 00 hlt", Recursion);
    check_none("0 0000 5C 00 push R0\n1 0000 A0 00 jmp 0", TwoDepths);
    check_none("0 0000 A8 01 call 1\n1 0000 F8 00 hlt", TwoRoutines);
    let bytes = "0 0000 A8 02 call 2\n1 0000 F8 00 hlt\n2 0000 5C 00 push R0\n3 0000 AC 00 ret";
    check_none(bytes, ReturnWithBytes);
}

#[test]
fn a_need_may_fill_the_stack_but_for_a_byte() {
    let pushes = "0-252 0000 5C 00 push R0\n253 0000 A8 FF call 255\n";
    let ends = "254 0000 F8 00 hlt\n255 0000 AC 00 ret";
    let listing = Listing::read(&format!("{pushes}{ends}"));
    assert_eq!(drawn(&listing).map(|(_, list)| list), Ok(vec![0, 254, 255, 0]));
    check_none("0-255 0000 5C 00 push R0", Hindrance::PastTheEnd);
}

#[test]
fn routines_are_at_most_64() {
    let chain = |routines: u8| {
        let calls = (0..routines - 1).map(|number| {
            let (at, next) = (2 * number, 2 * number + 2);
            format!("{at} 0000 A8 {next:02X} call {next}\n{} 0000 F8 00 hlt\n", at + 1)
        });
        Listing::read(&format!("{}{} 0000 F8 00 hlt", calls.collect::<String>(), 2 * routines - 2))
    };
    let list: Vec<u8> = (0..64).flat_map(|number| [2 * number, 63 - number]).collect();
    assert_eq!(drawn(&chain(64)).map(|(_, drawn)| drawn), Ok(list));
    let Listing { opcodes, arguments, .. } = chain(65);
    assert_eq!(hindrance(&opcodes, &arguments), Some(Hindrance::TooManyRoutines));
}

#[test]
fn sizes_come_first_and_refusals_write_nothing() {
    let Listing { opcodes, arguments, .. } = Listing::a();
    let answer = |opcodes: &[u8], sheet: usize, list: usize| {
        let (mut sheet, mut list) = (vec![0x55; sheet], vec![0x55; list]);
        let answer = draw(opcodes, &arguments, &mut sheet, &mut list);
        let written = sheet.iter().chain(&list).any(|byte| *byte != 0x55);
        (answer, written)
    };
    assert_eq!(answer(&opcodes[1..], 511, 127), (Err(1), false));
    assert_eq!(answer(&opcodes, 511, 127), (Err(2), false));
    assert_eq!(answer(&opcodes, 512, 127), (Err(3), false));
    assert_eq!(answer(&[0xAC; 256], 512, 128), (Err(27), false));
    assert_eq!(answer(&opcodes, 512, 128), (Ok(2), true));
}
