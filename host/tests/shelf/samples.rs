//! Twenty listings: those that are stored, one of zeros, and one of bytes 255.

use crate::checks::written;
use crate::stored::{names, path, read};
use cesca::{BANK, MOST_LIST, SHEET};
use reference::Listing;

/// The listings of the stored files.
pub fn stored() -> Vec<Listing> {
    let directory = path("../listings");
    let names = names(&directory, ".bin").into_iter();
    let files = names.map(|name| read(&directory.join(name).with_extension("bin")));
    files.map(|file| Listing::cut(&file)).collect()
}

/// A listing of zeros with one routine.
pub fn blank() -> Listing {
    Listing::blank().with_list(&[0, 0])
}

/// The listing with the longest file.
pub fn full() -> Listing {
    let full = |length| vec![0xFF; length];
    Listing {
        opcodes: full(BANK),
        arguments: full(BANK),
        sheet: full(SHEET),
        list: full(MOST_LIST),
    }
}

/// The twenty files.
pub fn files() -> Vec<Vec<u8>> {
    let listings = stored().into_iter().chain([blank(), full()]);
    let files: Vec<Vec<u8>> = listings.map(|listing| written(&listing)).collect();
    assert_eq!(files.len(), 20);
    files
}
