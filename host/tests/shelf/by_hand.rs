//! Files and listings worked out by hand.

use crate::checks::{opened, shown, written};
use crate::samples::{blank, full};
use reference::Listing;

/// Listing A's file: n, eight words, the routines.
const A: [&[u8]; 10] = [
    &[8],
    &[0x30, 0x05, 0x80, 0x80, 0x02],
    &[0xA8, 0x01, 0x04, 0x80, 0x80, 0x02],
    &[0xF0, 0x01, 0x00, 0x80, 0x80, 0x02],
    &[0xF8, 0x01, 0x00, 0x80, 0x80, 0x02],
    &[0x5E, 0x00, 0x80, 0x82, 0x02],
    &[0x10, 0x01, 0x81, 0x82, 0x02],
    &[0x88, 0x01, 0x00, 0x81, 0x82, 0x03],
    &[0xAC, 0x01, 0x00, 0x80, 0x82, 0x03],
    &[2, 0, 2, 4, 1],
];

/// Checks that a listing has this file, and that the file is opened to it.
fn check(listing: Listing, file: &[u8]) {
    assert_eq!(written(&listing), file, "{listing:?}");
    assert_eq!(opened(file), Ok(listing), "{}", shown(file));
}

/// Checks that a file is refused by this number, at this byte.
fn check_refused(file: &[u8], number: u8, byte: usize) {
    assert_eq!(opened(file), Err((number, byte)), "{}", shown(file));
}

#[test]
fn listing_a_has_51_bytes() {
    let file = A.concat();
    assert_eq!(file.len(), 51);
    check(Listing::a(), &file);
}

#[test]
fn the_shortest_and_the_longest_file() {
    check(blank(), &[0, 1, 0, 0]);
    let word = [0xFF, 0x01, 0xFF, 0x01, 0xFF, 0xFF, 0x03];
    let longest = [&[0x80, 0x02][..], &word.repeat(256), &[64], &[0xFF, 0x01].repeat(128)];
    assert_eq!(longest.concat().len(), 2_051);
    check(full(), &longest.concat());
}

#[test]
fn one_part_of_the_last_word_decides_over_n() {
    check(blank().with_word(1, [1, 0]), &[2, 0, 0, 0, 1, 0, 0, 1, 0, 0]);
    check(blank().with_word(1, [0, 1]), &[2, 0, 0, 0, 0, 1, 0, 1, 0, 0]);
    check(blank().with_sheet(1, 0x0001), &[2, 0, 0, 0, 0, 0, 1, 1, 0, 0]);
    check(blank().with_sheet(1, 0x0100), &[2, 0, 0, 0, 0, 0, 0x80, 2, 1, 0, 0]);
    let zeros = [0; 3 * 255];
    check(blank().with_word(255, [0, 1]), &[&[0x80, 2][..], &zeros, &[0, 1, 0, 1, 0, 0]].concat());
}

#[test]
fn numbers_of_one_two_and_three_groups() {
    let edges = blank().with_word(0, [127, 128]).with_sheet(0, 16_383);
    let edges = edges.with_word(1, [255, 0]).with_sheet(1, 16_384).with_list(&[127, 128]);
    let file =
        [2, 0x7F, 0x80, 0x01, 0xFF, 0x7F, 0xFF, 0x01, 0, 0x80, 0x80, 0x01, 1, 0x7F, 0x80, 0x01];
    check(edges, &file);
    // n itself is 127, and then 128.
    let zeros = [0; 3 * 127];
    check(blank().with_word(126, [9, 0]), &[&[127], &zeros[3..], &[9, 0, 0, 1, 0, 0]].concat());
    check(blank().with_word(127, [9, 0]), &[&[0x80, 1], &zeros[..], &[9, 0, 0, 1, 0, 0]].concat());
}

#[test]
fn a_number_of_any_length_is_judged_for_its_form_first() {
    let ten = [0xFF; 10];
    check_refused(&ten, 30, 0);
    check_refused(&[&ten[..], &[0]].concat(), 30, 0);
    check_refused(&[&ten[..], &[1]].concat(), 31, 0);
    let million = vec![0xFF; 1_000_000];
    check_refused(&million, 30, 0);
    check_refused(&[&million[..], &[0]].concat(), 30, 0);
    check_refused(&[&million[..], &[1]].concat(), 31, 0);
    check_refused(&[&[0, 1, 5], &million[..], &[1]].concat(), 31, 3);
}

#[test]
fn numbers_that_are_cut_off() {
    check_refused(&[], 30, 0);
    check_refused(&[0x80], 30, 0);
    check_refused(&[1], 30, 1);
    check_refused(&[1, 5], 30, 2);
    check_refused(&[1, 5, 9, 0x80, 0x80], 30, 3);
    check_refused(&[1, 5, 9, 7], 30, 4);
    check_refused(&[0, 2, 0, 2, 4], 30, 5);
}

#[test]
fn numbers_that_could_be_shorter() {
    check_refused(&[0x80, 0], 30, 0);
    check_refused(&[0x80, 0x82, 0], 30, 0);
    check_refused(&[1, 0x85, 0, 9, 7, 1, 0, 0], 30, 1);
    check_refused(&[1, 5, 9, 0x87, 0x80, 0, 1, 0, 0], 30, 3);
    check_refused(&[0, 0x81, 0, 0, 0], 30, 1);
    check_refused(&[0, 1, 0, 0x80, 0], 30, 3);
}

#[test]
fn numbers_over_their_fields() {
    check_refused(&[0x81, 2], 31, 0); // n 257
    check_refused(&[1, 0x80, 2, 9, 7, 1, 0, 0], 31, 1);
    check_refused(&[1, 5, 0x80, 2, 7, 1, 0, 0], 31, 2);
    check_refused(&[1, 5, 9, 0x80, 0x80, 4, 1, 0, 0], 31, 3);
    check_refused(&[0, 0], 31, 1);
    check_refused(&[0, 65], 31, 1);
    check_refused(&[0, 1, 0x80, 2, 0], 31, 2);
    check_refused(&[0, 1, 0, 0x80, 2], 31, 3);
    // 2 to the 32 and 2 to the 64, and 1 more: nothing wraps.
    check_refused(&[0x81, 0x80, 0x80, 0x80, 0x10], 31, 0);
    check_refused(&[&[0x81], &[0x80; 8][..], &[2]].concat(), 31, 0);
}

#[test]
fn the_first_number_from_the_front_decides() {
    // 31 of an opcode before an argument that is cut off; 30 of it before 31 of the argument.
    check_refused(&[1, 0x80, 2, 0x80], 31, 1);
    check_refused(&[1, 0x80, 0, 0x80, 2], 30, 1);
    // No routines before an n that isn't least, and a list that is cut off too.
    check_refused(&[1, 0, 0, 0, 0], 31, 4);
    check_refused(&[1, 0, 0, 0, 1, 0], 30, 6);
    check_refused(&[1, 0, 0, 0, 1, 0, 0x80], 30, 6);
    // The words are judged before n is asked whether it is least.
    check_refused(&[2, 0, 0, 0, 0x80, 2, 0, 0], 31, 4);
}

#[test]
fn n_is_the_least_and_nothing_follows() {
    check_refused(&[1, 0, 0, 0, 1, 0, 0], 31, 0);
    check_refused(&[2, 5, 9, 7, 0, 0, 0, 1, 0, 0], 31, 0);
    check_refused(&[0, 1, 0, 0, 0], 31, 4);
    check_refused(&[1, 5, 9, 7, 1, 0, 0, 0xFF], 31, 7);
    // Both: n is asked first.
    check_refused(&[1, 0, 0, 0, 1, 0, 0, 0], 31, 0);
}

#[test]
fn what_would_be_refused_is_shelved_and_opened() {
    let odd = Listing::a().with_sheet(9, 5).with_list(&[9, 9]);
    assert!(odd.admit().is_err());
    assert_eq!(opened(&written(&odd)), Ok(odd));
}
