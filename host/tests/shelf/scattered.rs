//! Files of random bytes, and files in which several are changed, left out or put in.

use crate::random::{each_case, Random};
use crate::samples::files;
use crate::tally::Tally;

/// The files of each kind.
const CASES: u64 = 30_000;

/// Bytes that make whole files, and some that don't.
const FEW: &[u8] = &[0, 0, 0, 1, 1, 2, 3, 64, 65, 127, 128, 128, 129, 255];

/// Random bytes: any, or of a few kinds behind a small n.
pub fn random_bytes(tally: &mut Tally) {
    each_case(CASES, |random| {
        let length = random.below(40) as usize;
        let file = match random.once_in(4) {
            true => random.bytes(length),
            false => few(length, random),
        };
        let _ = tally.open(&file);
    });
}

/// So many bytes of a few kinds, n and the first routine in a form that goes on.
fn few(length: usize, random: &mut Random) -> Vec<u8> {
    let n = random.below(3) as u8;
    let bytes = (0..length).map(|_| random.pick(FEW));
    let words: Vec<u8> = [n].into_iter().chain(bytes).collect();
    let behind = words.len().min(1 + 3 * usize::from(n));
    [&words[..behind], &[1], &words[behind..]].concat()
}

/// Files in which a few bytes are changed.
pub fn changed(tally: &mut Tally) {
    let files: Vec<Vec<u8>> = files().into_iter().filter(|file| file.len() < 200).collect();
    each_case(CASES, |random| {
        let mut file = files[random.below(files.len() as u32) as usize].clone();
        for _ in 0..=random.below(3) {
            change(&mut file, random);
        }
        let _ = tally.open(&file);
    });
}

/// Exchanges, leaves out or puts in up to two bytes.
fn change(file: &mut Vec<u8>, random: &mut Random) {
    let at = random.below(file.len() as u32 + 1) as usize;
    let end = (at + random.below(3) as usize).min(file.len());
    let count = random.below(3) as usize;
    let others: Vec<u8> = (0..count).map(|_| random.pick(FEW)).collect();
    file.splice(at..end, others);
}
