//! Ground 16: where an instruction goes on, at which depth, with V or without.

use super::*;

#[test]
fn the_four_parts_at_the_next_word() {
    check(&a_with_sheet(&[(3, 0)]), 16, 2);
    check(&a_with_sheet(&[(3, 0x8100)]), 16, 2);
    check(&a_with_sheet(&[(3, 0x8001)]), 16, 2);
    check(&a_with_sheet(&[(3, 0xC000)]), 16, 2);
}

#[test]
fn the_four_parts_at_a_target() {
    for opcode in [0xA0, 0xB0] {
        let jump = a_with_words(&[(2, [opcode, 0x09])]);
        check(&jump, 16, 2);
        check(&jump.clone().with_sheet(9, 0x8100), 16, 2);
        check(&jump.clone().with_sheet(9, 0x8001), 16, 2);
        check(&jump.clone().with_sheet(9, 0xC000), 16, 2);
        check_admitted(&jump.with_sheet(9, 0x8000).with_word(9, [0xF8, 0x00]));
    }
}

#[test]
fn push_then_a_jump_back() {
    let text = "routine 0 at 0 need 1\n0 8000 5C 00 push R0\n1 8001 A0 00 jmp 0";
    check(&Listing::read(text), 16, 1);
}

#[test]
fn a_push_at_depth_255_has_no_successor() {
    check(&Listing::pushes([0xA0, 0x00]), 16, 255); // jmp 0
    let wrapped = "routine 0 at 0 need 255\n0 8000 F8 00 hlt\n1 80FF 5C 00 push R0";
    check(&Listing::read(wrapped), 16, 1);
    check(&Listing::read(wrapped).with_sheet(2, 0x8000), 16, 1);
}

#[test]
fn depths_after_push_and_pop() {
    check(&a_with_sheet(&[(5, 0x8100)]), 16, 4);
    check(&a_with_sheet(&[(7, 0x8101)]), 16, 6);
    check(&a_with_words(&[(5, [0x5C, 0x00])]), 16, 5);
}

#[test]
fn v_after_each_effect() {
    // At 6, C101: what does the word at 5 do to V?
    check_admitted(&a_with_words(&[(5, [0x24, 0x01])])); // cmp R0, 1
    check_admitted(&a_with_words(&[(5, [0x00, 0x40])])); // subb R0, R0, R0
    check_admitted(&a_with_words(&[(5, [0x20, 0x30])])); // addc NONE, R0, R0
    check_admitted(&a_with_words(&[(5, [0x00, 0x00])])); // mov R0, R0
    check_admitted(&a_with_words(&[(5, [0x20, 0x01])])); // mov NONE, R1
    check(&a_with_words(&[(5, [0x00, 0x50])]), 16, 5); // and R0, R0, R0
    check(&a_with_words(&[(5, [0x28, 0x01])]), 16, 5); // mask R0, 1
    check(&a_with_words(&[(5, [0x2C, 0x01])]), 16, 5); // mask IN, 1
    check(&a_with_words(&[(5, [0x20, 0xF0])]), 16, 5); // rol NONE, R0
    check(&a_with_words(&[(5, [0x30, 0x01])]), 16, 5); // mov R0, 1 keeps V, unmarked at 5
    check_admitted(&a_with_sheet(&[(6, 0x8101), (7, 0x8100)]));
    check(&a_with_sheet(&[(6, 0x8101)]), 16, 6);
}

/// A test of V right behind a register mov.
const MOVED: &str = "
    routine 0 at 0 need 0

    0  8000  00 01  mov R0, R1
    1  C000  D8 03  jlt 3
    2  8000  F8 00  hlt
    3  8000  F8 00  hlt
";

#[test]
fn v_is_tested_behind_a_register_mov() {
    let moved = Listing::read(MOVED);
    for opcode in [0xC0, 0xC4, 0xD8, 0xDC] {
        let tested = moved.clone().with_word(1, [opcode, 0x03]); // jv, jnv, jlt, jle
        check_admitted(&tested);
        check_admitted(&tested.clone().with_word(0, [0x20, 0x01])); // mov NONE, R1
        check(&tested.with_sheet(1, 0x8000), 10, 1);
    }
}

#[test]
fn no_other_mov_settles_v() {
    // and R0, R0, R1; mov R0, 5; mov R0, IN; mov R0, [1]; mov R0, [R1]
    for word in [[0x00, 0x51], [0x30, 0x05], [0x40, 0x00], [0x60, 0x01], [0x71, 0x00]] {
        let other = Listing::read(MOVED).with_word(0, word);
        check(&other, 16, 0);
        check(&other.with_sheet(1, 0x8000), 10, 1);
    }
}

#[test]
fn v_is_never_marked_after_a_call() {
    let listing = Listing::read(
        "routine 0 at 0 need 1
         routine 1 at 4 need 0
         0  8000  24 01  cmp R0, 1
         1  C000  A8 04  call 4
         2  8000  F8 00  hlt
         4  8100  AC 00  ret",
    );
    check_admitted(&listing);
    check(&listing.with_sheet(2, 0xC000), 16, 1);
}
