//! What both drawers draw for a program, once it is found to be alike and in order.

use crate::buffers::Buffers;
use crate::drawers::DRAWERS;
use crate::programs::Program;
use cesca::{MOST_LIST, SHEET};
use reference::{Listing, Routine, SheetWord};

/// The listing with the sheet and list that both drawers draw for a program, or none where both
/// answer 27 and leave their buffers.
pub fn drawn(program: &Program) -> Option<Listing> {
    let Program { opcodes, arguments } = program;
    let before = Buffers::old(SHEET, MOST_LIST);
    let [(library, found), (reference, wanted)] =
        DRAWERS.map(|(_, drawer)| before.lent(drawer, opcodes, arguments));
    assert_eq!(library, reference, "library and reference on {program:?}");
    let wanted = if library.is_ok() { wanted } else { before };
    let differences = found.differences(&wanted);
    assert!(differences.is_empty(), "{program:?}\nleaves {}", differences.join("; "));
    let routines = match library {
        Ok(routines) => routines,
        Err(number) => {
            assert_eq!(number, 27, "{program:?}");
            return None;
        }
    };
    let (list, behind) = found.list().split_at(2 * routines);
    assert!(behind.iter().all(|byte| *byte == 0), "{behind:?} behind the list of {program:?}");
    let [opcodes, arguments] = [opcodes, arguments].map(|bank| bank.to_vec());
    let listing =
        Listing { opcodes, arguments, sheet: found.sheet().to_vec(), list: list.to_vec() };
    check_admitted(&listing);
    check_order(&listing);
    Some(listing)
}

/// Checks that library and reference admit what is drawn.
fn check_admitted(listing: &Listing) {
    let Listing { opcodes, arguments, sheet, list } = listing;
    assert_eq!(cesca::admit(opcodes, arguments, sheet, list), Ok(()), "{listing:?}");
    assert_eq!(listing.admit(), Ok(()), "{listing:?}");
}

/// Checks that the routines come by their entries, 0 first, and that words without a description
/// are 0.
fn check_order(listing: &Listing) {
    let entries: Vec<u8> = routines(listing).map(|routine| routine.entry).collect();
    assert_eq!(entries.first(), Some(&0), "{listing:?}");
    assert!(entries.is_sorted_by(|one, next| one < next), "{listing:?}");
    let words = listing.sheet_words();
    assert!(words.iter().all(|word| word.described() || *word == SheetWord(0)), "{listing:?}");
}

/// The routines of a listing.
pub fn routines(listing: &Listing) -> impl Iterator<Item = Routine> + '_ {
    listing.list.chunks_exact(2).map(|pair| Routine { entry: pair[0], need: pair[1] })
}

/// The routine of a described address.
pub fn routine_of(listing: &Listing, word: SheetWord) -> Routine {
    routines(listing).nth(word.routine().into()).expect("a routine of the list")
}

/// Checks what a drawing promises against any sheet and list that are admitted with its banks:
/// where it describes an address, the other does too, in the routine with the same entry, at the
/// same depth, with no mark that is missing here, and needs no less for that routine.
pub fn check_against(drawing: &Listing, other: &Listing) {
    let words = drawing.sheet_words().into_iter().zip(other.sheet_words());
    for (at, (word, others)) in words.enumerate().filter(|(_, (word, _))| word.described()) {
        assert!(others.described(), "{at} of {drawing:?} beside {other:?}");
        let [own, its] = [routine_of(drawing, word), routine_of(other, others)];
        assert_eq!((own.entry, word.depth()), (its.entry, others.depth()), "{at} of {other:?}");
        assert!(word.settled() || !others.settled(), "a mark at {at} of {other:?}");
        assert!(own.need <= its.need, "need {own:?} at {at} of {other:?}");
    }
}
