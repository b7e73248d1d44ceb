//! The library as a loader uses it: listings out of files, their admission and their boards.

mod admitted;
mod boards;
#[allow(dead_code)]
#[path = "../run/case.rs"]
mod case;
#[path = "../desk/cases/mod.rs"]
mod cases;
#[allow(dead_code)]
#[path = "../common/described.rs"]
mod described;
mod drawn;
mod lengths;
#[allow(dead_code)]
#[path = "../common/memory.rs"]
mod memory;
mod mnemonics;
mod pair;
mod parts;
#[path = "../common/random.rs"]
mod random;
#[allow(dead_code)]
#[path = "../common/stored.rs"]
mod stored;

use cesca::{Refusal, MOST_READ};
use reference::Listing;

/// A file's name, its bytes and what the desk prints on them.
type File = (String, Vec<u8>, String);

/// The stored listings and the desk's cases.
fn files() -> Vec<File> {
    let listings = described::described().into_iter().map(|file| {
        let bytes = stored::read(&described::file(&file.name));
        (file.name, bytes, file.printed)
    });
    let cases = cases::cases().into_iter().map(|(name, input)| {
        let printed = stored::path("tests/desk").join(name).with_extension("out");
        (name.to_string(), input, stored::text(&printed))
    });
    listings.chain(cases).collect()
}

/// The library's answer on what the desk reads of a file.
fn answer(file: &[u8]) -> Result<(), Refusal> {
    let Listing { opcodes, arguments, sheet, list } =
        Listing::cut(&file[..file.len().min(MOST_READ)]);
    cesca::admit(&opcodes, &arguments, &sheet, &list)
}

/// Number and place of a refusal.
fn ground(refusal: Refusal) -> (u8, Option<u8>) {
    (refusal.number(), refusal.place())
}
