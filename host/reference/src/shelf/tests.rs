//! Files worked out by hand.

use super::{open, shelve};
use crate::Listing;
use cesca_types::{BANK, MOST_LIST, SHEET};

/// Listing A's file: n, a line for each address, the routines.
const A: [u8; 51] = [
    8, // n
    0x30, 0x05, 0x80, 0x80, 0x02, // 0
    0xA8, 0x01, 0x04, 0x80, 0x80, 0x02, // 1
    0xF0, 0x01, 0x00, 0x80, 0x80, 0x02, // 2
    0xF8, 0x01, 0x00, 0x80, 0x80, 0x02, // 3
    0x5E, 0x00, 0x80, 0x82, 0x02, // 4
    0x10, 0x01, 0x81, 0x82, 0x02, // 5
    0x88, 0x01, 0x00, 0x81, 0x82, 0x03, // 6
    0xAC, 0x01, 0x00, 0x80, 0x82, 0x03, // 7
    2, 0, 2, 4, 1, // routines
];

/// The file of a listing, written to a buffer of this length, behind which nothing is changed.
fn written(listing: &Listing, room: usize) -> Result<Vec<u8>, u8> {
    let Listing { opcodes, arguments, sheet, list } = listing;
    let mut out = vec![0x55; room];
    let length = shelve(opcodes, arguments, sheet, list, &mut out);
    let rest = out.split_off(length.unwrap_or(0));
    assert!(rest.iter().all(|byte| *byte == 0x55), "{rest:?}");
    length.map(|_| out)
}

/// The listing of a file, or number and byte, once a refusal has left old buffers.
fn opened(file: &[u8]) -> Result<Listing, (u8, usize)> {
    let old = |length| vec![0x55; length];
    let (mut opcodes, mut arguments, mut sheet, mut list) =
        (old(BANK), old(BANK), old(SHEET), old(MOST_LIST));
    let routines = open(file, &mut opcodes, &mut arguments, &mut sheet, &mut list);
    let kept = routines.is_err().then(|| [&opcodes[..], &arguments, &sheet, &list].concat());
    assert!(kept.is_none_or(|bytes| bytes.iter().all(|byte| *byte == 0x55)), "{file:02X?}");
    let behind = list.split_off(2 * routines?);
    assert!(behind.iter().all(|byte| *byte == 0), "{behind:?}");
    Ok(Listing { opcodes, arguments, sheet, list })
}

#[test]
fn listing_a_and_its_file() {
    assert_eq!(written(&Listing::a(), 2_051), Ok(A.to_vec()));
    assert_eq!(opened(&A), Ok(Listing::a()));
}

#[test]
fn the_shortest_and_the_longest_file() {
    let blank = Listing::blank().with_list(&[0, 0]);
    assert_eq!(written(&blank, 3_000), Ok(vec![0, 1, 0, 0]));
    assert_eq!(opened(&[0, 1, 0, 0]), Ok(blank));
    let full = |length| vec![0xFF; length];
    let full = Listing {
        opcodes: full(BANK),
        arguments: full(BANK),
        sheet: full(SHEET),
        list: full(MOST_LIST),
    };
    let file = written(&full, 2_051).expect("a file");
    let address = [0xFF, 0x01, 0xFF, 0x01, 0xFF, 0xFF, 0x03];
    let wanted = [&[0x80, 0x02][..], &address.repeat(256), &[64], &[0xFF, 0x01].repeat(128)];
    assert_eq!(file, wanted.concat());
    assert_eq!(file.len(), 2_051);
    assert_eq!(opened(&file), Ok(full));
}

#[test]
fn one_part_of_the_last_word_is_enough() {
    let blank = || Listing::blank().with_list(&[0, 0]);
    for (listing, file) in [
        (blank().with_word(0, [1, 0]), [1, 1, 0, 0, 1, 0, 0]),
        (blank().with_word(0, [0, 1]), [1, 0, 1, 0, 1, 0, 0]),
        (blank().with_sheet(0, 1), [1, 0, 0, 1, 1, 0, 0]),
    ] {
        assert_eq!(written(&listing, 2_051), Ok(file.to_vec()));
        assert_eq!(opened(&file), Ok(listing));
    }
    let high = blank().with_sheet(0, 0x0100);
    assert_eq!(written(&high, 2_051), Ok(vec![1, 0, 0, 0x80, 2, 1, 0, 0]));
}

#[test]
fn numbers_that_are_cut_off_or_not_shortest() {
    assert_eq!(opened(&[]), Err((30, 0)));
    assert_eq!(opened(&[0xFF; 10]), Err((30, 0)));
    assert_eq!(opened(&[[0xFF; 10].as_slice(), &[0]].concat()), Err((30, 0)));
    assert_eq!(opened(&[0x80, 0x80, 0]), Err((30, 0)));
    assert_eq!(opened(&[0]), Err((30, 1)));
    assert_eq!(opened(&[1, 5, 0x80, 0, 0]), Err((30, 2)));
    assert_eq!(opened(&[1, 5, 9, 0x80, 0x80]), Err((30, 3)));
    assert_eq!(opened(&[0, 1, 0]), Err((30, 3)));
    assert_eq!(opened(&[0, 1, 0, 0xFF]), Err((30, 3)));
}

#[test]
fn numbers_that_are_not_in_their_fields() {
    assert_eq!(opened(&[[0xFF; 10].as_slice(), &[1]].concat()), Err((31, 0)));
    assert_eq!(opened(&[0x81, 2]), Err((31, 0)));
    assert_eq!(opened(&[1, 0x80, 2]), Err((31, 1)));
    assert_eq!(opened(&[1, 5, 0x80, 2]), Err((31, 2)));
    assert_eq!(opened(&[1, 5, 9, 0x80, 0x80, 4]), Err((31, 3)));
    assert_eq!(opened(&[0, 0]), Err((31, 1)));
    assert_eq!(opened(&[0, 65]), Err((31, 1)));
    assert_eq!(opened(&[0, 1, 0x80, 2, 0]), Err((31, 2)));
    assert_eq!(opened(&[0, 1, 0, 0x80, 2]), Err((31, 3)));
}

#[test]
fn leastness_and_bytes_that_follow_come_last() {
    assert_eq!(opened(&[2, 5, 0, 0, 0, 0, 0, 1, 0, 0]), Err((31, 0)));
    assert_eq!(opened(&[2, 5, 0, 0, 0, 0, 0, 1, 0, 0, 9]), Err((31, 0)));
    assert_eq!(opened(&[2, 5, 0, 0, 0, 0, 0, 1, 0]), Err((30, 9)));
    assert_eq!(opened(&[1, 5, 0, 0, 1, 0, 0, 9, 9]), Err((31, 7)));
    assert_eq!(opened(&[2, 0, 0, 0, 0, 0, 5, 1, 0, 0]).map(|opened| opened.sheet[2]), Ok(5));
}

#[test]
fn lengths_come_first() {
    let (bank, sheet) = (vec![0; BANK], vec![0; SHEET]);
    let answer = |opcodes: &[u8], sheet: &[u8], list: &[u8], room: usize| {
        shelve(opcodes, &bank, sheet, list, &mut vec![0; room])
    };
    assert_eq!(answer(&bank[1..], &[], &[], 0), Err(1));
    assert_eq!(answer(&bank, &sheet[1..], &[], 0), Err(2));
    for length in [0, 1, 127, 129, 130] {
        assert_eq!(answer(&bank, &sheet, &vec![0; length], 0), Err(3), "{length}");
    }
    assert_eq!(answer(&bank, &sheet, &[0, 0], 2_050), Err(32));
    assert_eq!(answer(&bank, &sheet, &[0, 0], 2_051), Ok(4));
    let answer = |opcodes: usize, sheet: usize, list: usize| {
        let (mut opcodes, mut arguments) = (vec![0; opcodes], vec![0; BANK]);
        let (mut sheet, mut list) = (vec![0; sheet], vec![0; list]);
        open(&[], &mut opcodes, &mut arguments, &mut sheet, &mut list)
    };
    assert_eq!(answer(255, 511, 127), Err((1, 0)));
    assert_eq!(answer(256, 511, 127), Err((2, 0)));
    assert_eq!(answer(256, 512, 2), Err((3, 0)));
    assert_eq!(answer(256, 512, 128), Err((30, 0)));
}
