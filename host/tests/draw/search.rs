//! Every sheet and list of a tiny program that admission could say yes to.
//!
//! A tiny program uses the addresses up to [`LAST`] alone: the last of them is `hlt`, as are all
//! behind it, and no jump or call leaves them. It pushes and calls at no more than [`LAST`]
//! addresses.
//!
//! The search is wide enough to stand for all sheets and lists. Say that some are admitted. What a
//! reached address leads to or calls is reached, so all descriptions of other addresses may be left
//! out, with the routines whose entries go undescribed: each rule still holds where it is asked, and
//! no need or mark of a reached address has changed. What is left lies within the used addresses,
//! and so do its entries, each of another routine. Needs fall from caller to callee, so no routine
//! is under way twice, and each byte that a routine has on the stack, with what its callees have, was
//! put there by a push or call at an address of its own: depths are at most [`LAST`]. Callees first,
//! each need may be put down to the most that its routine's depths and calls ask for, which is at
//! most [`LAST`] for the same reason. Only numbers in another order are left, which are all tried.

use crate::programs::Program;
use reference::{Listing, SheetWord};

/// The last address that a tiny program uses.
pub const LAST: u8 = 3;

/// The sheets and lists within these bounds that the reference's admission admits.
pub fn admitted(program: &Program) -> Vec<Listing> {
    let blank = Listing {
        opcodes: program.opcodes.to_vec(),
        arguments: program.arguments.to_vec(),
        ..Listing::blank()
    };
    let mut found = Vec::new();
    for entries in entries() {
        // Rules 6 and 7 leave an entry's word no choice.
        let mut listing = (0..).zip(&entries).fold(blank.clone(), |listing, (routine, entry)| {
            listing.with_sheet(*entry, SheetWord::new(routine, 0, false).0)
        });
        let free: Vec<u8> = (0..=LAST).filter(|at| !entries.contains(at)).collect();
        each_sheet(&mut listing, &free, &words(entries.len()), &mut |listing| {
            add_admitted(&mut found, listing, &entries);
        });
    }
    found
}

/// The entries of all lists: 0, and then any others in any order.
fn entries() -> Vec<Vec<u8>> {
    let mut lists = vec![vec![0]];
    let mut longer = 0;
    while let Some(list) = lists.get(longer).cloned() {
        let others = (0..=LAST).filter(|at| !list.contains(at));
        lists.extend(others.map(|entry| [&list[..], &[entry]].concat()));
        longer += 1;
    }
    lists
}

/// The words that an address may have with so many routines: none, or any with a depth in bounds.
fn words(routines: usize) -> Vec<u16> {
    let numbers = 0..routines as u8;
    let depths = numbers.flat_map(|routine| (0..=LAST).map(move |depth| (routine, depth)));
    let described = depths.flat_map(|(routine, depth)| {
        [false, true].map(|settled| SheetWord::new(routine, depth, settled).0)
    });
    [0].into_iter().chain(described).collect()
}

/// Calls `visit` with each listing that has any of the words at each of the free addresses.
fn each_sheet(
    listing: &mut Listing,
    free: &[u8],
    words: &[u16],
    visit: &mut impl FnMut(&mut Listing),
) {
    let Some((at, rest)) = free.split_first() else { return visit(listing) };
    for word in words {
        listing.sheet[2 * usize::from(*at)..][..2].copy_from_slice(&word.to_le_bytes());
        each_sheet(listing, rest, words, visit);
    }
}

/// Adds the listing with any needs with which it is admitted.
fn add_admitted(found: &mut Vec<Listing>, listing: &mut Listing, entries: &[u8]) {
    let choices = usize::from(LAST) + 1;
    for number in 0..choices.pow(entries.len() as u32) {
        let need = |routine: usize| (number / choices.pow(routine as u32) % choices) as u8;
        let list = entries.iter().enumerate().flat_map(|(routine, entry)| [*entry, need(routine)]);
        listing.list.clear();
        listing.list.extend(list);
        match listing.admit() {
            Ok(()) => found.push(listing.clone()),
            // Only rules 8 and 15 speak of needs: what breaks another, breaks it with any.
            Err(refusal) if ![8, 15].contains(&refusal.number()) => return,
            Err(_) => {}
        }
    }
}
