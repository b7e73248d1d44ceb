//! Banks and buffers of a wrong length are refused before anything is drawn.

use crate::buffers::Buffers;
use crate::drawers::{Answer, DRAWERS};
use crate::programs::Program;
use cesca::{BANK, MOST_LIST, SHEET};
use reference::Listing;

/// The lengths that are tried for each bank.
const BANKS: [usize; 7] = [0, 1, 128, 255, BANK, 257, 512];

/// The lengths that are tried for the sheet.
const SHEETS: [usize; 8] = [0, 1, 256, 511, SHEET, 513, 1_024, 65_536];

/// The lengths that are tried for the list.
const LISTS: [usize; 9] = [0, 1, 2, 64, 127, MOST_LIST, 129, 130, 256];

/// A bank cut to a length, or with `hlt` behind it.
fn resized(bank: &[u8], length: usize) -> Vec<u8> {
    bank.iter().copied().chain([0xF8].into_iter().cycle()).take(length).collect()
}

/// The answer that lengths call for, the lowest number that applies, if they call for one.
fn wanted(banks: [usize; 2], sheet: usize, list: usize) -> Option<Answer> {
    let refused = [(1, banks != [BANK; 2]), (2, sheet != SHEET), (3, list != MOST_LIST)];
    refused.into_iter().find(|(_, wrong)| *wrong).map(|(number, _)| Err(number))
}

/// Checks what both drawers answer on a program cut to all these lengths; refusals write nothing.
fn check(program: &Program, good: Answer) {
    let pairs = BANKS.into_iter().flat_map(|opcodes| BANKS.map(|arguments| [opcodes, arguments]));
    let buffers = || SHEETS.into_iter().flat_map(|sheet| LISTS.map(|list| (sheet, list)));
    for banks in pairs {
        let opcodes = resized(&program.opcodes, banks[0]);
        let arguments = resized(&program.arguments, banks[1]);
        for (sheet, list) in buffers() {
            let before = Buffers::old(sheet, list);
            for (name, drawer) in DRAWERS {
                let (answer, after) = before.lent(drawer, &opcodes, &arguments);
                let lent = format!("{name}: banks of {banks:?}, sheet {sheet}, list {list}");
                assert_eq!(answer, wanted(banks, sheet, list).unwrap_or(good), "{lent}");
                assert_eq!(after != before, answer.is_ok(), "{lent}");
            }
        }
    }
}

#[test]
fn the_lowest_number_comes_first() {
    check(&Program::of(&Listing::a()), Ok(2));
    check(&Program::of(&Listing::a().with_word(0, [0xAC, 0x00])), Err(27)); // ret
}

#[test]
fn buffers_of_no_bytes_are_lent() {
    let Program { opcodes, arguments } = Program::of(&Listing::a());
    for (name, drawer) in DRAWERS {
        assert_eq!(drawer(&[], &[], &mut [], &mut []), Err(1), "{name}");
        assert_eq!(drawer(&opcodes, &arguments, &mut [], &mut []), Err(2), "{name}");
        assert_eq!(drawer(&opcodes, &arguments, &mut [0; SHEET], &mut []), Err(3), "{name}");
    }
}
