//! Files that are cut, that are continued, and that tell of blank words behind the last: each is
//! refused for what was done to it.

use crate::random::{each_case, Random};
use crate::samples::files;
use crate::tally::Tally;

/// The most blank words that are put behind the last.
const MOST_BLANKS: u32 = 3;

/// The files whose end is changed in other ways.
const CASES: u64 = 5_000;

/// Every beginning of twenty files: a number is cut off or missing.
pub fn cut(tally: &mut Tally) {
    for file in files() {
        for length in 0..file.len() {
            tally.refuse(&file[..length], (30, begin(&file, length)));
        }
    }
}

/// Files with one to eight bytes behind them.
pub fn continued(tally: &mut Tally) {
    let files = files();
    each_case(CASES, |random| {
        let file = &files[random.below(files.len() as u32) as usize];
        let more = 1 + random.below(8) as usize;
        tally.refuse(&[&file[..], &random.bytes(more)].concat(), (31, file.len()));
    });
}

/// Files with a greater n than must be: what is behind them doesn't matter, but that they are whole
/// does.
pub fn blank(tally: &mut Tally) {
    let files: Vec<Vec<u8>> = files().into_iter().filter(|file| file[0] < 124).collect();
    assert!(files.len() >= 18, "{} files of few words", files.len());
    each_case(CASES, |random| {
        let file = &files[random.below(files.len() as u32) as usize];
        let padded = padded(file, random);
        match random.below(4) {
            0 => {
                let length = 1 + random.below(padded.len() as u32 - 1) as usize;
                tally.refuse(&padded[..length], (30, begin(&padded, length)));
            }
            1 => tally.refuse(&[padded, random.bytes(3)].concat(), (31, 0)),
            _ => tally.refuse(&padded, (31, 0)),
        }
    });
}

/// The byte where the number begins that is cut off, if a file is cut here.
fn begin(file: &[u8], length: usize) -> usize {
    file[..length].iter().rposition(|byte| *byte < 128).map_or(0, |last| last + 1)
}

/// The same file with blank words behind its last, n being below 124.
pub fn padded(file: &[u8], random: &mut Random) -> Vec<u8> {
    let n = file[0];
    let blanks = 1 + random.below(MOST_BLANKS) as u8;
    let last_group = |(_, byte): &(usize, &u8)| **byte < 128;
    let mut ends = file.iter().enumerate().filter(last_group).map(|(at, _)| at + 1);
    let words = ends.nth(3 * usize::from(n)).expect("the end of the words");
    let zeros = vec![0; 3 * usize::from(blanks)];
    [&[n + blanks], &file[1..words], &zeros, &file[words..]].concat()
}
