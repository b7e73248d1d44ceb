//! Grounds 8 to 15 at an address, and which of them comes first.

use super::*;

#[test]
fn a_depth_over_the_need() {
    check(&Listing::a().with_list(&[0, 2, 4, 0]), 8, 5);
    check(&a_with_sheet(&[(8, 0x8003)]), 8, 8);
}

#[test]
fn a_jump_to_a_register() {
    for opcode in 0xA4..=0xA7 {
        check(&a_with_words(&[(3, [opcode, 0x03])]), 9, 3);
    }
}

#[test]
fn tests_of_v_without_a_mark() {
    for opcode in [0xC0, 0xC4, 0xD8, 0xDC] {
        check(&a_with_words(&[(2, [opcode, 0x03])]), 10, 2);
        check_admitted(
            &a_with_words(&[(6, [opcode, 0x05]), (7, [0xA0, 0x07])]).with_sheet(7, 0xC101),
        );
    }
    for opcode in [0xB0, 0xB4, 0xB8, 0xBC, 0xC8, 0xCC, 0xD0, 0xD4] {
        check_admitted(&a_with_words(&[(2, [opcode, 0x03])]));
    }
}

#[test]
fn pop_and_swap_at_depth_0() {
    check(&a_with_words(&[(4, [0x88, 0x00])]), 11, 4);
    check(&a_with_words(&[(4, [0x90, 0x00])]), 11, 4);
    check_admitted(&a_with_words(&[(5, [0x90, 0x00])]).with_sheet(6, 0x8101).with_sheet(7, 0x8100));
}

#[test]
fn ret_in_routine_0_or_above_its_address() {
    check(&a_with_words(&[(3, [0xAC, 0x00])]), 12, 3);
    check(&a_with_words(&[(6, [0xAC, 0x00])]), 12, 6);
    check(&a_with_words(&[(3, [0xAC, 0x00])]).with_sheet(3, 0x8001), 16, 2);
}

#[test]
fn the_last_address_going_on() {
    let last = |word| a_with_sheet(&[(255, 0x8000)]).with_word(255, word);
    check(&last([0xFC, 0x00]), 13, 255); // nop
    check(&last([0xB0, 0x00]), 13, 255); // jz 0
    check(&last([0xA8, 0x04]), 13, 255); // call 4
    check(&last([0x5C, 0x00]), 13, 255); // push R0
    check_admitted(&last([0xA0, 0x00])); // jmp 0
    check_admitted(&last([0xF8, 0x00])); // hlt
    let ret = a_with_sheet(&[(255, 0x8100)]).with_word(255, [0xAC, 0x00]);
    check_admitted(&ret);
}

#[test]
fn a_full_stack() {
    check_admitted(&Listing::pushes([0xF8, 0x00])); // hlt
    check(&Listing::pushes([0x5C, 0x00]), 13, 255); // push R0
    check(&Listing::pushes([0xFC, 0x00]), 13, 255); // nop
    check(&Listing::pushes([0xF8, 0x00]).with_list(&[0, 254]), 8, 255);
}

#[test]
fn a_call_of_no_entry() {
    for target in [0x02, 0x05, 0x08, 0xFF] {
        check(&a_with_words(&[(1, [0xA8, target])]), 14, 1);
    }
}

#[test]
fn a_need_that_a_call_exceeds() {
    check(&Listing::a().with_list(&[0, 1, 4, 1]), 15, 1);
    check(&Listing::a().with_list(&[0, 2, 4, 2]), 15, 1);
    // At depth 1 a need of 3 is wanted.
    let deeper = Listing::read(
        "routine 0 at 0 need 2
         routine 1 at 4 need 1
         0  8000  5C 00  push R0
         1  8001  A8 04  call 4
         2  8001  F8 00  hlt
         4  8100  AC 00  ret",
    );
    check(&deeper, 15, 1);
    check_admitted(&deeper.with_list(&[0, 3, 4, 1]));
}

#[test]
fn needs_do_not_wrap() {
    let call = Listing::read(
        "routine 0 at 0 need 255
         routine 1 at 2 need 255
         0  8000  A8 02  call 2
         1  8000  F8 00  hlt
         2  8100  AC 00  ret",
    );
    check(&call, 15, 0);
    check_admitted(&call.clone().with_list(&[0, 255, 2, 254]));
    check(&call.with_list(&[0, 0, 2, 255]), 15, 0); // 256 isn't 0
    let pushes = Listing::pushes([0xF8, 0x00]);
    check(&pushes.with_word(254, [0xA8, 0x00]), 15, 254); // call 0: 254 + 1 + 255 isn't 254
}

#[test]
fn a_routine_that_calls_itself() {
    let text = "routine 0 at 0 need 0\n0 8000 A8 00 call 0\n1 8000 F8 00 hlt";
    for need in 0..=255 {
        check(&Listing::read(text).with_list(&[0, need]), 15, 0);
    }
    let inner = a_with_words(&[(5, [0xA8, 0x04])]).with_sheet(6, 0x8101).with_sheet(7, 0x8100);
    for need in 1..=254 {
        check(&inner.clone().with_list(&[0, 255, 4, need]), 15, 5);
    }
    check(&inner.with_list(&[0, 255, 4, 255]), 15, 1);
}

#[test]
fn the_lowest_address_and_there_the_lowest_number() {
    let last = |sheet, word| a_with_sheet(&[(255, sheet)]).with_word(255, word);
    check(&last(0x8003, [0xA4, 0x00]), 8, 255); // jmp R0 too deep
    check(&last(0x8000, [0xD8, 0x00]), 10, 255); // jlt going on
    check(&last(0x8000, [0x90, 0x00]), 11, 255); // swap going on
    check(&last(0x8003, [0xAC, 0x00]), 8, 255); // ret too deep
    check(&last(0x8000, [0xA8, 0x05]), 13, 255); // call of no entry
    check(&a_with_words(&[(1, [0xA8, 0x05])]).with_sheet(2, 0), 14, 1);
    check(&a_with_sheet(&[(2, 0)]).with_list(&[0, 1, 4, 1]), 15, 1);
    check(&a_with_words(&[(3, [0xAC, 0x00]), (6, [0xA4, 0x00])]), 12, 3);
}
