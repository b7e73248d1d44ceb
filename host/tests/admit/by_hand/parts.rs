//! Grounds 1 to 7: lengths, the sheet's words, the routines' entries.

use super::*;

#[test]
fn banks_of_another_length() {
    for length in [0, 1, 255, 257, 512] {
        let bytes = vec![0; length];
        check(&Listing { opcodes: bytes.clone(), ..Listing::a() }, 1, 0);
        check(&Listing { arguments: bytes.clone(), ..Listing::a() }, 1, 0);
        let sheet = Vec::new();
        check(&Listing { arguments: bytes, sheet, ..Listing::a() }, 1, 0);
    }
}

#[test]
fn sheets_of_another_length() {
    for length in [0, 1, 256, 511, 513, 1_024] {
        let listing = Listing { sheet: vec![0; length], ..Listing::a() };
        check(&listing, 2, 0);
        check(&listing.with_list(&[]), 2, 0);
    }
}

#[test]
fn lists_odd_empty_or_too_long() {
    let mut long = Listing::a().list;
    long.resize(129, 0);
    for length in [0, 1, 3, 127, 129] {
        check(&Listing::a().with_list(&long[..length]), 3, 0);
    }
    long.resize(65_536, 0);
    for length in [130, 256, 260, 65_536] {
        check(&Listing::a().with_list(&long[..length]), 3, 0);
    }
    check(&Listing::a().with_list(&long[..128]), 7, 2);
    check(&a_with_sheet(&[(8, 1)]).with_list(&long[..129]), 3, 0);
}

#[test]
fn words_without_bit_15() {
    for word in [0x0001, 0x0080, 0x0100, 0x2000, 0x4000, 0x7FFF] {
        for at in [0, 3, 8, 128, 255] {
            check(&a_with_sheet(&[(at, word)]), 4, at);
        }
    }
    check(&a_with_sheet(&[(200, 1), (9, 1), (3, 0xBF00)]), 4, 9);
}

#[test]
fn routines_that_are_not_in_the_list() {
    check(&a_with_sheet(&[(8, 0x8200)]), 5, 8);
    check(&a_with_sheet(&[(255, 0xFFFF), (20, 0x8200)]), 5, 20);
    check(&Listing::a().with_list(&[0, 2]), 5, 4);
    check(&Listing::a().with_list(&[1, 2]), 5, 4);
}

#[test]
fn an_entry_of_routine_0_elsewhere() {
    for entry in [1, 4, 255] {
        check(&Listing::a().with_list(&[entry, 2, 4, 1]), 6, 0);
    }
    check(&a_with_sheet(&[(0, 0)]).with_list(&[1, 2, 8, 1]), 6, 0);
}

#[test]
fn entries_with_another_word() {
    check(&Listing::a().with_list(&[0, 2, 8, 1]), 7, 1); // not described
    check(&Listing::a().with_list(&[0, 2, 3, 1]), 7, 1); // of routine 0
    check(&Listing::a().with_list(&[0, 2, 5, 1]), 7, 1); // at depth 1
    check(&Listing::a().with_list(&[0, 2, 7, 1]), 7, 1); // V marked
    check(&a_with_sheet(&[(0, 0)]), 7, 0);
    check(&a_with_sheet(&[(0, 0x8100)]), 7, 0);
    check(&a_with_sheet(&[(0, 0x8001)]), 7, 0);
    check(&a_with_sheet(&[(0, 0xC000)]), 7, 0);
    check(&a_with_sheet(&[(0, 0xC000), (4, 0)]), 7, 0);
}

#[test]
fn two_routines_with_one_entry() {
    check(&Listing::a().with_list(&[0, 2, 4, 1, 4, 1]), 7, 2);
}
