//! Stored listings and the desk's cases: admitted or refused as at the desk, and told why.

use crate::{answer, files, ground};
use cesca::{Admitted, Listing, Refusal};

/// The listing in a file, admitted.
fn admitted(file: &[u8]) -> Result<Admitted, Refusal> {
    Listing::from_bytes(file)?.admit()
}

/// What the desk would print on a file.
fn printed(file: &[u8]) -> String {
    let admitted = match admitted(file) {
        Ok(admitted) => admitted,
        Err(refusal) => {
            let place = refusal.place().expect("a listing's refusal has a place");
            return format!("refused {} at {place}\n", refusal.number());
        }
    };
    let report = admitted.board().run(&[], 1_000).expect("nothing to refuse");
    let (need, stop, state) = (admitted.need(), report.stop, report.state);
    let counts = format!("steps {} cycles {}", report.steps, report.cycles);
    format!("admitted need {need}\n{stop} {counts} out {} sp {}\n", state.out, state.sp)
}

#[test]
fn a_loader_prints_what_the_desk_prints() {
    for (name, file, wanted) in files() {
        assert_eq!(printed(&file), wanted, "{name}");
    }
}

#[test]
fn a_refusal_has_the_librarys_number_and_place_and_words_of_its_own() {
    let mut numbers = [false; 17];
    for (name, file, _) in files() {
        let (found, wanted) = (admitted(&file).map(|_| ()), answer(&file));
        assert_eq!(found.clone().map_err(ground), wanted.clone().map_err(ground), "{name}");
        if let (Err(told), Err(general)) = (found, wanted) {
            assert_ne!(told.words(), general.words(), "{name}");
            numbers[usize::from(told.number())] = true;
        }
    }
    assert!(numbers[1..].iter().all(|met| *met), "{numbers:?}");
}

#[test]
fn an_admitted_listing_is_the_one_that_was_read() {
    let mut needs = Vec::new();
    for (name, file, _) in files() {
        let Ok(admitted) = admitted(&file) else { continue };
        assert_eq!(admitted.listing(), &Listing::from_bytes(&file).expect(&name), "{name}");
        assert_eq!(admitted.need(), file[1_025], "{name}");
        needs.push(admitted.need());
    }
    assert!(needs.len() >= 15 && needs.contains(&255), "{needs:?}");
}
