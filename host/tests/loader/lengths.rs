//! Files of any length: 1, 2 or 3 as at the desk, or a listing.

use crate::{answer, ground};
use cesca::{Listing, BANK, SHEET};
use reference::Listing as Text;

/// Listing A's file with this length, cut or continued.
fn file(length: usize, filling: u8) -> Vec<u8> {
    let mut file = Text::a().file();
    file.resize(length, filling);
    file
}

/// Checks how the refusal of a file of this length is shown.
fn check(length: usize, shown: &str) {
    let refusal = Listing::from_bytes(&file(length, 0)).expect_err(shown);
    assert_eq!(refusal.to_string(), shown);
}

#[test]
fn every_length_is_answered_as_at_the_desk() {
    let mut listings = 0;
    for length in 0..=1_200 {
        for filling in [0x00, 0x5A, 0xFF] {
            let file = file(length, filling);
            let (found, wanted) = (Listing::from_bytes(&file), answer(&file).map_err(ground));
            match (found, wanted) {
                (Err(refusal), wanted) => {
                    assert!(refusal.number() <= 3, "{length}: {refusal}");
                    assert_eq!(Err(ground(refusal)), wanted, "{length}");
                }
                (Ok(listing), wanted) => {
                    assert!(!wanted.is_err_and(|(number, _)| number <= 3), "{length}");
                    assert_eq!(listing.admit().map(|_| ()).map_err(ground), wanted, "{length}");
                    assert!(listing.to_bytes() == file, "{length}");
                    listings += 1;
                }
            }
        }
    }
    assert_eq!(listings, 3 * 64, "files of 1 to 64 routines");
}

#[test]
fn the_words_tell_the_lengths() {
    check(0, "1 at 0: there are 0 opcodes and 0 arguments, not 256 of each");
    check(300, "1 at 0: there are 256 opcodes and 44 arguments, not 256 of each");
    check(600, "2 at 0: the sheet has 88 bytes, not 512");
    check(1_023, "2 at 0: the sheet has 511 bytes, not 512");
    let even = "not an even number from 2 to 128";
    let list = |told: &str| format!("3 at 0: the routine list has {told}, {even}");
    check(1_025, &list("1 byte"));
    for length in [0, 3, 127, 129, 130, 3_976] {
        check(1_024 + length, &list(&format!("{length} bytes")));
    }
}

#[test]
fn bytes_past_those_that_the_desk_reads_do_not_matter() {
    for length in [1_153, 1_154, 1_155, 5_000, 1 << 20] {
        for filling in [0, 1, 0xFF] {
            let refusal = Listing::from_bytes(&file(length, filling)).map_err(ground);
            assert_eq!(refusal, Err((3, Some(0))), "{length}");
        }
    }
}

#[test]
fn lists_of_every_length() {
    let Text { opcodes, arguments, sheet, .. } = Text::a();
    let parts: ([u8; BANK], [u8; BANK], [u8; SHEET]) =
        (opcodes.try_into().unwrap(), arguments.try_into().unwrap(), sheet.try_into().unwrap());
    for length in 0..=300 {
        let mut list = Text::a().list;
        list.resize(length, 0);
        let found = Listing::from_parts(parts.0, parts.1, parts.2, &list);
        let wanted = cesca::admit(&parts.0, &parts.1, &parts.2, &list).map_err(ground);
        let refused = found.as_ref().is_err();
        assert_eq!(refused, wanted == Err((3, Some(0))), "{length}");
        assert_eq!(refused, length % 2 == 1 || !(2..=128).contains(&length), "{length}");
        let admitted = found.and_then(|listing| listing.admit());
        assert_eq!(admitted.map(|_| ()).map_err(ground), wanted, "{length}");
    }
}
