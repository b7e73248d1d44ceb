//! A listing and its file: one and the same, whatever the bytes.

use crate::files;
use crate::random::{each_case, Random};
use cesca::{decode, Listing, SheetWord};
use reference::Listing as Cut;

/// Checks that a listing has the parts of its file, and that its file is the same again.
fn check(file: &[u8]) {
    let listing = Listing::from_bytes(file).expect("a file of a listing's length");
    assert!(listing.to_bytes() == file);
    assert_eq!(Listing::from_bytes(&listing.to_bytes()), Ok(listing.clone()));
    let cut = Cut::cut(file);
    assert_eq!(
        (&listing.opcodes()[..], &listing.arguments()[..]),
        (&*cut.opcodes, &*cut.arguments)
    );
    for (at, wanted) in (0..=255).zip(cut.sheet_words()) {
        let index = usize::from(at);
        let word = [cut.opcodes[index], cut.arguments[index]];
        assert_eq!((listing.word(at), listing.instruction(at)), (word, decode(word)));
        let SheetWord { described, settled, routine, depth } = listing.sheet_word(at);
        let marks = (wanted.described(), wanted.settled());
        assert_eq!((described, settled), marks, "{at}");
        assert_eq!((routine, depth), (wanted.routine(), wanted.depth()), "{at}");
        assert_eq!(u16::from(listing.sheet_word(at)), wanted.0, "{at}");
    }
    let list: Vec<u8> = listing.routines().iter().flat_map(|it| [it.entry, it.need]).collect();
    assert_eq!(list, cut.list);
}

/// A file of any bytes with 1 to 64 routines.
fn any_bytes(random: &mut Random) -> Vec<u8> {
    let routines = 1 + random.below(64) as usize;
    random.bytes(1_024 + 2 * routines)
}

#[test]
fn files_of_any_bytes() {
    each_case(500, |random| check(&any_bytes(random)));
}

#[test]
fn stored_files() {
    let lengths = (1_026..=1_152).step_by(2);
    let whole =
        files().into_iter().filter(|(_, file, _)| lengths.clone().any(|it| it == file.len()));
    assert!(whole.map(|(_, file, _)| check(&file)).count() >= 60);
}

#[test]
fn listings_from_parts_are_those_from_the_file() {
    each_case(500, |random| {
        let file = any_bytes(random);
        let (opcodes, arguments) = (file[..256].try_into(), file[256..512].try_into());
        let [opcodes, arguments] = [opcodes, arguments].map(|bank| bank.expect("256 bytes"));
        let sheet = file[512..1_024].try_into().expect("512 bytes");
        let listing = Listing::from_parts(opcodes, arguments, sheet, &file[1_024..]);
        assert_eq!(listing, Listing::from_bytes(&file));
    });
}
