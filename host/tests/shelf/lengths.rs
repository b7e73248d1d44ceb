//! Parts and buffers of a wrong length are refused before anything is read or written.

use crate::buffers::{Buffers, LENGTHS};
use crate::memory::Guarded;
use crate::samples::full;
use crate::shelvers::{Opened, OPENERS, WRITERS};
use cesca::{BANK, MOST_LIST, SHEET, SHELF};
use reference::Listing;

/// The lengths that are tried for each bank.
const BANKS: [usize; 5] = [0, 255, BANK, 257, 512];

/// The lengths that are tried for the sheet.
const SHEETS: [usize; 5] = [0, 256, 511, SHEET, 513];

/// The lengths that are tried for the list, or its buffer.
const LISTS: [usize; 9] = [0, 1, 2, 4, 127, MOST_LIST, 129, 130, 256];

/// The lengths that are tried for the writer's buffer.
const ROOMS: [usize; 5] = [0, 51, SHELF - 1, SHELF, SHELF + 1];

/// The lengths of opcodes, arguments, sheet and list, in every combination.
fn combinations() -> impl Iterator<Item = [usize; 4]> {
    let banks = BANKS.into_iter().flat_map(|opcodes| BANKS.map(|arguments| [opcodes, arguments]));
    let others = || SHEETS.into_iter().flat_map(|sheet| LISTS.map(|list| [sheet, list]));
    banks.flat_map(move |[opcodes, arguments]| {
        others().map(move |[sheet, list]| [opcodes, arguments, sheet, list])
    })
}

/// The number that the lengths of banks, sheet and a list call for, if it is one of 1 to 3.
fn wanted(lengths: [usize; 4], is_list: impl Fn(usize) -> bool) -> Option<u8> {
    let [opcodes, arguments, sheet, list] = lengths;
    let wrong = [[opcodes, arguments] != [BANK; 2], sheet != SHEET, !is_list(list)];
    (1..).zip(wrong).find(|(_, wrong)| *wrong).map(|(number, _)| number)
}

/// A part cut to a length, or continued.
fn resized(part: &[u8], length: usize) -> Vec<u8> {
    part.iter().copied().chain([0xFF].into_iter().cycle()).take(length).collect()
}

#[test]
fn a_writer_asks_for_lengths_in_their_order() {
    let full = full();
    let mut met = [0; 5];
    for lengths in combinations() {
        let [opcodes, arguments, sheet, list] = lengths;
        let (opcodes, arguments) =
            (resized(&full.opcodes, opcodes), resized(&full.arguments, arguments));
        let (sheet, list) = (resized(&full.sheet, sheet), resized(&full.list, list));
        for room in ROOMS {
            let ground = wanted(lengths, |list| list % 2 == 0 && (2..=128).contains(&list));
            let ground = ground.or((room < 2_051).then_some(32));
            let before = Guarded::new(vec![7; room]);
            for (name, writer) in WRITERS {
                let mut after = before.clone();
                let answer = writer(&opcodes, &arguments, &sheet, &list, after.inner_mut());
                let lent = format!("{name}: {lengths:?} and a buffer of {room}");
                assert_eq!(answer.err(), ground, "{lent}");
                assert_eq!(after != before, answer.is_ok(), "{lent}");
            }
            met[usize::from(ground.unwrap_or(0).min(4))] += 1;
        }
    }
    assert_eq!(met, [6, 5_400, 180, 30, 9], "good, 1, 2, 3 and 32");
}

#[test]
fn an_opener_asks_for_lengths_in_their_order() {
    let files: [(&[u8], Opened); 3] =
        [(&[0, 1, 0, 0], Ok(1)), (&[0x80], Err((30, 0))), (&[0, 65], Err((31, 1)))];
    let mut met = [0; 4];
    for lengths in combinations() {
        let ground = wanted(lengths, |list| list == 128);
        let before = Buffers::old(lengths);
        for (file, good) in files {
            for (name, opener) in OPENERS {
                let (answer, after) = before.lent(opener, file);
                let lent = format!("{name}: {lengths:?} and {file:02X?}");
                assert_eq!(answer, ground.map_or(good, |number| Err((number, 0))), "{lent}");
                assert_eq!(after != before, answer.is_ok(), "{lent}");
            }
        }
        met[usize::from(ground.unwrap_or(0))] += 1;
    }
    assert_eq!(met, [1, 1_080, 36, 8], "good, 1, 2 and 3");
}

#[test]
fn the_room_of_the_longest_file_is_asked_for_the_shortest_too() {
    for listing in [Listing::a(), Listing::blank().with_list(&[0, 0]), full()] {
        let Listing { opcodes, arguments, sheet, list } = &listing;
        for (name, writer) in WRITERS {
            let answer = |room| writer(opcodes, arguments, sheet, list, &mut vec![0; room]);
            assert_eq!([answer(0), answer(51), answer(2_050)], [Err(32); 3], "{name}");
            assert!(answer(2_051).is_ok() && answer(10_000).is_ok(), "{name}");
        }
    }
}

#[test]
fn buffers_of_no_bytes_are_lent() {
    for (name, opener) in OPENERS {
        assert_eq!(opener(&[], &mut [], &mut [], &mut [], &mut []), Err((1, 0)), "{name}");
        let (answer, _) = Buffers::old(LENGTHS).lent(opener, &[]);
        assert_eq!(answer, Err((30, 0)), "{name}");
    }
    for (name, writer) in WRITERS {
        assert_eq!(writer(&[], &[], &[], &[], &mut []), Err(1), "{name}");
    }
}
