//! Files that come back, and buffers that are left.

use super::*;
use crate::samples::a;

#[test]
fn listing_a_has_a_file_of_51_bytes_and_comes_back() {
    let listing = a().listing();
    let file = shelve(&listing);
    assert_eq!((file.len(), &file[..6]), (51, &[8, 0x30, 5, 0x80, 0x80, 2][..]));
    assert_eq!(file[46..], [2, 0, 2, 4, 1]);
    assert_eq!(open(&file), Ok(listing));
}

#[test]
fn what_is_not_admitted_has_a_file_too() {
    let listing = a().list(&[0, 1, 4, 1]).sheet(255, 5).listing();
    assert!(listing.admit().is_err());
    assert_eq!(open(&shelve(&listing)), Ok(listing));
}

#[test]
fn the_longest_file() {
    let (bank, list) = ([0xFF; BANK], [0xFF; MOST_LIST]);
    let listing = Listing::from_parts(bank, bank, [0xFF; SHEET], &list).expect("64 routines");
    let file = shelve(&listing);
    assert_eq!([file.len(), SHELF], [2_051; 2]);
    assert_eq!(open(&file), Ok(listing));
}

#[test]
fn a_refusal_to_write_leaves_the_buffer() {
    let (bank, sheet, list) = ([1; BANK], [1; SHEET], [1; MOST_LIST]);
    let check = |lengths: [usize; 5], shown: &str| {
        let [opcodes, length, words, routines, room] = lengths;
        let mut out = vec![7; room];
        let parts = (&bank[..opcodes], &bank[..length], &sheet[..words], &list[..routines]);
        let refusal = shelve_into(parts.0, parts.1, parts.2, parts.3, &mut out);
        assert_eq!(refusal.expect_err(shown).to_string(), shown);
        assert_eq!(out, vec![7; room], "{shown}");
    };
    let banks = "1: there are 256 opcodes and 9 arguments, not 256 of each";
    check([256, 9, 0, 0, 0], banks);
    check([256, 256, 510, 0, 0], "2: the sheet has 510 bytes, not 512");
    let list = "3: the routine list has 1 byte, not an even number from 2 to 128";
    check([256, 256, 512, 1, 0], list);
    let short = "32: the shelf file's buffer has 2050 bytes, under 2,051";
    check([256, 256, 512, 2, 2_050], short);
}
