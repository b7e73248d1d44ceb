//! Every ground, and every variant of those that have some.

use super::explained;
use crate::samples::{a, Sample};
use cesca_types::Refusal;

/// Checks how the refusal of a listing is shown.
fn check(sample: Sample, shown: &str) {
    let refusal = sample.listing().admit().expect_err("a refusal");
    assert_eq!(refusal.to_string(), shown);
}

/// Listing A with this sheet word and this instruction word at 255.
fn last(sheet: u16, word: [u8; 2]) -> Sample {
    a().sheet(255, sheet).word(255, word)
}

#[test]
fn words_without_a_description() {
    check(a().sheet(9, 5), "4 at 9: address 9 is not described, yet its sheet word is 0005");
    let marked = "4 at 255: address 255 is not described, yet its sheet word is 4A00";
    check(a().sheet(255, 0x4A00), marked);
}

#[test]
fn routines_that_are_not_there() {
    let two = "5 at 3: address 3 names routine 7, and the list has 2 routines";
    check(a().sheet(3, 0x8700), two);
    check(a().list(&[0, 2]), "5 at 4: address 4 names routine 1, and the list has 1 routine");
}

#[test]
fn another_beginning() {
    check(a().list(&[4, 2, 4, 1]), "6 at 0: routine 0 begins at 4");
}

#[test]
fn entries_of_four_kinds() {
    let undescribed = "7 at 1: routine 1 begins at 8, which is not described";
    check(a().list(&[0, 2, 8, 1]), undescribed);
    check(a().list(&[0, 2, 3, 1]), "7 at 1: routine 1 begins at 3, which is in routine 0");
    check(a().list(&[0, 2, 5, 1]), "7 at 1: routine 1 begins at 5, which is at depth 1");
    check(a().list(&[0, 2, 7, 1]), "7 at 1: routine 1 begins at 7, which marks V");
    let shared = "7 at 2: routine 2 begins at 4, which is in routine 1";
    check(a().list(&[0, 2, 4, 1, 4, 1]), shared);
}

#[test]
fn depths_and_needs() {
    check(a().list(&[0, 2, 4, 0]), "8 at 5: depth 1 is over routine 1's need of 0");
    check(a().sheet(8, 0x8003), "8 at 8: depth 3 is over routine 0's need of 2");
}

#[test]
fn jumps_to_a_register() {
    check(a().word(3, [0xA5, 0x03]), "9 at 3: jmp R1 could go anywhere");
}

#[test]
fn tests_of_v() {
    for (opcode, name) in [(0xC0, "jv"), (0xC4, "jnv"), (0xD8, "jlt"), (0xDC, "jle")] {
        let shown = format!("10 at 2: {name} tests V, which the sheet doesn't mark as settled");
        check(a().word(2, [opcode, 0x03]), &shown);
    }
}

#[test]
fn pops_and_swaps() {
    check(a().word(4, [0x88, 0x00]), "11 at 4: pop at depth 0 would take the return address");
    let swap = "11 at 4: swap at depth 0 would exchange the return address";
    check(a().word(4, [0x9A, 0x00]), swap);
    let pop = "11 at 2: pop at depth 0 of routine 0, where nothing is on the stack";
    check(a().word(2, [0x88, 0x00]), pop);
    let swap = "11 at 2: swap at depth 0 of routine 0, where nothing is on the stack";
    check(a().word(2, [0x90, 0x00]), swap);
}

#[test]
fn returns() {
    check(a().word(3, [0xAC, 0x00]), "12 at 3: ret in routine 0");
    let one = "12 at 6: ret with 1 byte of routine 1 still on the stack";
    check(a().word(6, [0xAC, 0x00]), one);
    let two = "12 at 8: ret with 2 bytes of routine 1 still on the stack";
    check(a().sheet(8, 0x8102).word(8, [0xAC, 0x00]).list(&[0, 3, 4, 2]), two);
}

#[test]
fn the_last_address() {
    check(last(0x8000, [0xFC, 0x00]), "13 at 255: nop would go on past address 255");
    let branch = "13 at 255: jz would go on past address 255 if it isn't taken";
    check(last(0x8000, [0xB0, 0x00]), branch);
    let call = "13 at 255: call would go on past address 255 after its return";
    check(last(0x8000, [0xA8, 0x04]), call);
    check(last(0x8000, [0x20, 0x80]), "13 at 255: xor would go on past address 255");
}

#[test]
fn calls() {
    check(a().word(1, [0xA8, 0x09]), "14 at 1: call 9, where no routine begins");
    let two = "15 at 1: the call needs 2 bytes where routine 0 has 1 left";
    check(a().list(&[0, 1, 4, 1]), two);
    let one = "15 at 8: the call needs 1 byte where routine 0 has 0 left";
    let full = a().sheet(8, 0x8002).word(8, [0xA8, 0x09]);
    let full = full.sheet(9, 0x8200).word(9, [0xAC, 0x00]).sheet(10, 0x8002);
    check(full.list(&[0, 2, 4, 1, 9, 0]), one);
    let most = "15 at 1: the call needs 256 bytes where routine 0 has 255 left";
    check(a().list(&[0, 255, 4, 255]), most);
}

#[test]
fn next_words_of_four_kinds() {
    check(a().sheet(3, 0), "16 at 2: mov leads to address 3, which is not described");
    let routine = "16 at 2: mov leads to address 3, which is in routine 1 instead of 0";
    check(a().sheet(3, 0x8100), routine);
    let depth = "16 at 2: mov leads to address 3, which is at depth 1 where 0 is due";
    check(a().sheet(3, 0x8001), depth);
    let v = "16 at 2: mov leads to address 3, which marks V although V may be unsettled";
    check(a().sheet(3, 0xC000), v);
}

#[test]
fn targets_of_four_kinds() {
    for (opcode, name) in [(0xA0, "jmp"), (0xB4, "jnz")] {
        let jump = a().word(2, [opcode, 0x09]);
        let shown = |wrong: &str| format!("16 at 2: {name} leads to address 9, which {wrong}");
        check(jump.clone(), &shown("is not described"));
        check(jump.clone().sheet(9, 0x8100), &shown("is in routine 1 instead of 0"));
        check(jump.clone().sheet(9, 0x8002), &shown("is at depth 2 where 0 is due"));
        check(jump.sheet(9, 0xC000), &shown("marks V although V may be unsettled"));
    }
}

#[test]
fn depths_that_are_due() {
    let push = "16 at 4: push leads to address 5, which is at depth 0 where 1 is due";
    check(a().sheet(5, 0x8100), push);
    let pop = "16 at 6: pop leads to address 7, which is at depth 1 where 0 is due";
    check(a().sheet(7, 0xC101), pop);
    let deepest = a().list(&[0, 255, 4, 1]).sheet(8, 0x80FF).word(8, [0x5C, 0x00]);
    let push = "16 at 8: push leads to address 9, which is at depth 0 where 256 is due";
    check(deepest.sheet(9, 0x8000), push);
}

#[test]
fn marks_of_v_that_are_not_due() {
    let wrong = "marks V although V may be unsettled";
    let call = format!("16 at 1: call leads to address 2, which {wrong}");
    check(a().sheet(2, 0xC000), &call);
    let mask = format!("16 at 5: mask leads to address 6, which {wrong}");
    check(a().word(5, [0x28, 0x01]), &mask);
    let and = format!("16 at 5: and leads to address 6, which {wrong}");
    check(a().word(5, [0x00, 0x50]), &and);
}

#[test]
fn the_target_is_told_before_the_next_word() {
    let both = a().word(2, [0xB0, 0x09]).sheet(3, 0);
    check(both, "16 at 2: jz leads to address 9, which is not described");
    let next = a().word(2, [0xB0, 0x01]).sheet(3, 0);
    check(next, "16 at 2: jz leads to address 3, which is not described");
}

#[test]
fn another_number_keeps_its_general_words() {
    let listing = a().listing();
    for number in 1..=16 {
        for place in 0..=255 {
            let refusal = Refusal::of_listing(number, place);
            assert_eq!(explained(&listing, refusal.clone()), refusal);
        }
    }
    let call = Refusal::of_call(17);
    assert_eq!(explained(&listing, call.clone()), call);
}
