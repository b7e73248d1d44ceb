//! What is told of files that aren't opened: words that fit the number and what stands at the byte.

use crate::checks::shown;
use crate::ends::padded;
use crate::random::each_case;
use crate::samples::files;
use cesca::ShelfRefusal;

/// The files.
const CASES: u64 = 20_000;

/// What can be told: the number, and a part of the words that stands in no others.
const TOLD: [(u8, &str); 6] = [
    (30, "the file ends before "),
    (30, " is cut off: "),
    (30, " is not in its shortest form: "),
    (31, ", not "),
    (31, " is the least: all is 0 from address "),
    (31, " the last number"),
];

/// Which of them a refusal tells, once it fits the file.
fn told(refusal: &ShelfRefusal, file: &[u8]) -> usize {
    let words = refusal.words();
    let fits = |(number, part): (u8, &str)| number == refusal.number() && words.contains(part);
    let kinds: Vec<usize> = (0..TOLD.len()).filter(|kind| fits(TOLD[*kind])).collect();
    let [kind] = kinds[..] else { panic!("{refusal}: {kinds:?}") };
    let rest = &file[refusal.byte().expect("a byte")..];
    let last = rest.iter().position(|byte| *byte < 128);
    let fits = match kind {
        0 => rest.is_empty(),
        1 => !rest.is_empty() && last.is_none(),
        2 => last.is_some_and(|last| last > 0 && rest[last] == 0),
        4 => rest == file && words.starts_with("n is "),
        _ => !rest.is_empty(),
    };
    assert!(fits, "{refusal} of {}", shown(file));
    kind
}

#[test]
fn every_refusal_of_a_damaged_file_is_explained() {
    let files: Vec<Vec<u8>> = files().into_iter().filter(|file| file.len() < 200).collect();
    let mut counts = [0; TOLD.len()];
    each_case(CASES, |random| {
        let mut file = files[random.below(files.len() as u32) as usize].clone();
        let at = random.below(file.len() as u32) as usize;
        match random.below(5) {
            0 => file.truncate(at),
            1 => file.extend(random.bytes(2)),
            2 => file = padded(&file, random),
            _ => file[at] = random.byte(),
        }
        if let Err(refusal) = cesca::open(&file) {
            counts[told(&refusal, &file)] += 1;
        }
    });
    assert!(counts.iter().all(|count| *count >= 100), "{counts:?}");
}
