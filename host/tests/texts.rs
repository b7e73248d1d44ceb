//! Listings as text: the library beside the reference, on drawn listings and on damaged texts.

#[allow(dead_code)]
#[path = "common/random.rs"]
mod random;

use cesca::Listing;
use random::{each_case, Random};
use reference::{Instruction, Listing as Drawn};
use std::iter;

/// The characters that a damaged text gets.
const LETTERS: &[char] = &[
    '0', '1', '5', '9', 'F', 'f', 'x', ' ', '\t', '\n', '\r', '+', '-', ',', ';', '#', '/', '[',
    'R', 'é', '٣', '\u{FEFF}', '\0',
];

/// A listing without rhyme or reason, a third of whose addresses are 0 throughout.
fn drawn(random: &mut Random) -> Drawn {
    let routines = 1 + random.below(64) as usize;
    let listing = Drawn::blank().with_list(&random.bytes(2 * routines));
    (0..=255).fold(listing, |listing, at| match random.once_in(3) {
        true => listing,
        false => {
            let [high, low] = [random.byte(), random.byte()];
            let word = [random.byte(), random.byte()];
            listing.with_word(at, word).with_sheet(at, u16::from_be_bytes([high, low]))
        }
    })
}

/// The text of a listing, a line for each address that isn't 0 throughout.
fn text(listing: &Drawn) -> String {
    let routines = (0..).zip(listing.list.chunks(2));
    let routines = routines
        .map(|(number, routine)| format!("routine {number} at {} need {}", routine[0], routine[1]));
    let lines = (0..256).filter_map(|at| {
        let word = [listing.opcodes[at], listing.arguments[at]];
        let sheet = u16::from_le_bytes([listing.sheet[2 * at], listing.sheet[2 * at + 1]]);
        let instruction = Instruction::decode(word);
        let [opcode, argument] = word;
        let line = format!("{at} {sheet:04X} {opcode:02X} {argument:02X} {instruction}");
        (word != [0, 0] || sheet != 0).then_some(line)
    });
    routines.chain(lines).map(|line| line + "\n").collect()
}

/// The text with some characters left out, put in or exchanged.
fn damaged(text: &str, random: &mut Random) -> String {
    let mut letters: Vec<char> = text.chars().collect();
    for _ in 0..=random.below(2) {
        let at = random.below(letters.len() as u32) as usize;
        let end = (at + random.below(3) as usize).min(letters.len());
        let count = random.below(3) as usize;
        let others: Vec<char> = iter::repeat_with(|| random.pick(LETTERS)).take(count).collect();
        letters.splice(at..end, others);
    }
    letters.into_iter().collect()
}

#[test]
fn drawn_listings_come_back_from_their_text() {
    each_case(200, |random| {
        let listing = drawn(random);
        let read = Listing::from_text(&text(&listing)).expect("a listing's text");
        assert!(read.to_bytes() == listing.file());
    });
}

#[test]
fn a_damaged_text_is_refused_or_read_as_the_reference_reads_it() {
    let [mut read, mut refused] = [0, 0];
    each_case(10_000, |random| {
        let text = damaged(&text(&Drawn::a()), random);
        match Listing::from_text(&text) {
            Ok(listing) => {
                assert!(listing.to_bytes() == Drawn::read(&text).file(), "{text}");
                read += 1;
            }
            Err(error) => {
                assert!((1..=text.lines().count().max(1)).contains(&error.line), "{error}");
                refused += 1;
            }
        }
    });
    assert!(read > 500 && refused > 5_000, "{read} read, {refused} refused");
}
