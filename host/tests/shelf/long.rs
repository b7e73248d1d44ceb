//! Numbers of one to twenty groups in each field.

use crate::random::{each_case, Random};
use crate::tally::Tally;

/// A file of two addresses and two routines, each of its numbers in one byte.
const FILE: [u8; 12] = [2, 1, 2, 3, 4, 5, 6, 2, 7, 8, 9, 10];

/// The largest number of each of its fields; the number of routines is 1 at least.
const LARGEST: [u32; 12] = [256, 255, 255, 65_535, 255, 255, 65_535, 64, 255, 255, 255, 255];

/// The place of the number of routines.
const ROUTINES: usize = 7;

/// The most groups of a number.
const MOST: usize = 20;

/// The groups of a number before the last.
const FIRST: [u8; 4] = [0x80, 0x81, 0xAA, 0xFF];

/// The last group of a number, or none if it is cut off.
const LAST: [Option<u8>; 5] = [None, Some(0), Some(1), Some(4), Some(127)];

/// The numbers with random groups.
const CASES: u64 = 30_000;

/// Every field with numbers whose groups before the last are alike.
pub fn of_equal_groups(tally: &mut Tally) {
    for field in 0..FILE.len() {
        for groups in 1..=MOST {
            for first in FIRST {
                for last in LAST {
                    check(tally, field, &vec![first; groups - 1], last);
                }
            }
        }
    }
}

/// Fields with random numbers.
pub fn of_random_groups(tally: &mut Tally) {
    each_case(CASES, |random| {
        let field = random.below(FILE.len() as u32) as usize;
        let groups = 1 + random.below(MOST as u32) as usize;
        let first: Vec<u8> = random.bytes(groups - 1).iter().map(|byte| byte | 128).collect();
        check(tally, field, &first, last_group(random));
    });
}

/// A last group, or none.
fn last_group(random: &mut Random) -> Option<u8> {
    match random.below(4) {
        0 => random.pick(&LAST),
        _ => Some(random.byte() % 128),
    }
}

/// Checks the answer on the file with this number in a field; where it is cut off, the file ends.
fn check(tally: &mut Tally, field: usize, first: &[u8], last: Option<u8>) {
    let number = [first, last.as_slice()].concat();
    let behind = if last.is_some() { &FILE[field + 1..] } else { &[] };
    let answer = tally.open(&[&FILE[..field], &number, behind].concat());
    match (first.len(), last) {
        (_, None) | (1.., Some(0)) => assert_eq!(answer, Err((30, field)), "{number:02X?}"),
        _ if is_of_field(field, &number) => {
            // What stands behind n or the number of routines may no longer fit.
            let is_count = field == 0 || field == ROUTINES;
            assert!(is_count || answer.is_ok(), "{number:02X?} in field {field}: {answer:?}");
        }
        _ => assert_eq!(answer, Err((31, field)), "{number:02X?}"),
    }
}

/// Whether a number is one that its field may have: no field has one of more than three groups.
fn is_of_field(field: usize, number: &[u8]) -> bool {
    let least = u32::from(field == ROUTINES);
    let add = |value: u32, group: &u8| value * 128 + u32::from(group % 128);
    number.len() <= 3 && (least..=LARGEST[field]).contains(&number.iter().rev().fold(0, add))
}
