//! Listings of banks alone: drawn, admitted, and run as those with a sheet of their own.

use crate::files;
use crate::random::each_case;
use cesca::{Listing, BANK, MOST_LIST, SHEET};

#[test]
fn a_listing_of_banks_has_what_is_drawn_and_is_admitted() {
    let (mut drawn, mut refused) = (0, 0);
    each_case(10_000, |random| {
        let opcodes: [u8; BANK] = random.bytes(BANK).try_into().expect("a bank");
        let arguments: [u8; BANK] = random.bytes(BANK).try_into().expect("a bank");
        // Jumps and calls stay near address 0, so that more programs meet again and end.
        let arguments = arguments.map(|argument| argument % 16);
        let (mut sheet, mut list) = ([0; SHEET], [0; MOST_LIST]);
        let wanted = reference::draw(&opcodes, &arguments, &mut sheet, &mut list);
        match Listing::from_banks(opcodes, arguments) {
            Ok(listing) => {
                listing.admit().expect("what is drawn is admitted");
                let list = &list[..2 * wanted.expect("routines")];
                assert!(listing.to_bytes() == [&opcodes, &arguments, &sheet[..], list].concat());
                drawn += 1;
            }
            Err(refusal) => {
                assert_eq!((Err(refusal.number()), refusal.place()), (wanted, None));
                refused += 1;
            }
        }
    });
    assert!(drawn > 100 && refused > 100, "{drawn} drawn, {refused} refused");
}

#[test]
fn what_the_desk_admits_is_drawn_with_needs_that_are_no_greater() {
    let mut least = 0;
    for (name, file, printed) in files() {
        if !printed.starts_with("admitted") {
            continue;
        }
        let own = Listing::from_bytes(&file).expect(&name);
        let drawn = Listing::from_banks(*own.opcodes(), *own.arguments()).expect(&name);
        for routine in drawn.routines() {
            let same = own.routines().iter().find(|own| own.entry == routine.entry);
            let need = same.unwrap_or_else(|| panic!("{name}: {routine:?} is its own")).need;
            assert!(routine.need <= need, "{name}: {routine:?}, and the file says {need}");
            least += u32::from(routine.need < need);
        }
        for at in 0..=255 {
            let (own, drawn) = (own.sheet_word(at), drawn.sheet_word(at));
            assert!(own.described || !drawn.described, "{name}: {at} is reached");
            assert!(!drawn.described || drawn.settled || !own.settled, "{name}: V at {at}");
        }
        let run = |listing: &Listing| {
            let mut board = listing.admit().expect(&name).board();
            board.run(&[], 1_000).expect("nothing to refuse")
        };
        assert_eq!(run(&drawn), run(&own), "{name}");
    }
    assert!(least > 0, "no file has needs above the least");
}
