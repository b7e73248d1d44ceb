//! What the files came to, so that nothing goes untested.

use crate::checks::{opened, shown, written};
use reference::Listing;

/// How often each outcome was met on files of one kind.
#[derive(Debug, Default)]
pub struct Tally {
    /// The files that both openers were given.
    pub files: u64,
    /// Those that were opened.
    pub opened: u64,
    /// Those that were refused by 30.
    pub thirty: u64,
    /// Those that were refused by 31 at byte 0: n is over 256 or not the least.
    pub thirty_one_of_n: u64,
    /// Those that were refused by 31 further on.
    pub thirty_one: u64,
}

impl Tally {
    /// What both openers answer on a file. One that is opened is the file of its listing.
    pub fn open(&mut self, file: &[u8]) -> Result<Listing, (u8, usize)> {
        let answer = opened(file);
        self.files += 1;
        match &answer {
            Ok(listing) => {
                assert!(written(listing) == file, "{}", shown(file));
                self.opened += 1;
            }
            Err((30, _)) => self.thirty += 1,
            Err((31, 0)) => self.thirty_one_of_n += 1,
            Err((31, _)) => self.thirty_one += 1,
            Err(refused) => panic!("{refused:?} of {}", shown(file)),
        }
        answer
    }

    /// Checks that a file is refused so.
    pub fn refuse(&mut self, file: &[u8], wanted: (u8, usize)) {
        assert_eq!(self.open(file), Err(wanted), "{}", shown(file));
    }

    /// The file of a listing, once it is opened to that listing.
    pub fn shelve(&mut self, listing: &Listing) -> Vec<u8> {
        let file = written(listing);
        assert_eq!(self.open(&file).as_ref(), Ok(listing), "{}", shown(&file));
        file
    }

    /// How often a file was opened, refused by 30, by 31 at byte 0, and by 31 further on.
    pub fn outcomes(&self) -> [u64; 4] {
        [self.opened, self.thirty, self.thirty_one_of_n, self.thirty_one]
    }
}
