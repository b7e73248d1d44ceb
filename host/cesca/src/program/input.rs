//! The files that the program reads.

use super::failure::Failure;
use cesca::{Admitted, Listing, Refusal, TextError, MOST_READ};
use std::ffi::OsStr;
use std::fs::File;
use std::io::{self, Read};
use std::string::FromUtf8Error;

/// The name of standard input.
pub const STANDARD: &str = "-";

/// A kind of file that is read whole.
struct Kind {
    /// The most bytes that it may have.
    most: usize,
    /// What is told of a longer one.
    longer: &'static str,
}

/// A listing's text.
const TEXT: Kind = Kind { most: 1_048_576, longer: "over 1,048,576 bytes, too long for a listing" };

/// A source. The 256 lines that banks have room for are under 10,000 bytes, and a long text with
/// many labels takes long.
const SOURCE: Kind = Kind { most: 65_536, longer: "over 65,536 bytes, too long for a source" };

/// A shelf file. The longest has 2,051 bytes; a longer one is read too, since what follows may
/// decide for what it is refused.
const SHELF: Kind = Kind { most: 65_536, longer: "over 65,536 bytes, too long for a shelf file" };

/// The bytes of a listing's file, as many as the desk reads.
pub fn bytes(name: &OsStr) -> Result<Vec<u8>, Failure> {
    read(name, MOST_READ)
}

/// The listing's text in a file, if it isn't too long and is UTF-8.
pub fn text(name: &OsStr) -> Result<String, Failure> {
    let bytes = limited(name, &TEXT)?;
    String::from_utf8(bytes).map_err(|error| Failure::of_text(name, &not_utf8(&error)))
}

/// The bytes of a source, if it isn't too long.
pub fn source(name: &OsStr) -> Result<Vec<u8>, Failure> {
    limited(name, &SOURCE)
}

/// The bytes of a shelf file, if it isn't too long.
pub fn shelved(name: &OsStr) -> Result<Vec<u8>, Failure> {
    limited(name, &SHELF)
}

/// The bytes of a file of this kind, if it isn't too long.
fn limited(name: &OsStr, kind: &Kind) -> Result<Vec<u8>, Failure> {
    let bytes = read(name, kind.most + 1)?;
    if bytes.len() > kind.most {
        return Err(Failure::File(format!("{}: {}", name.display(), kind.longer)));
    }
    Ok(bytes)
}

/// The listing in a file of these bytes, or the refusal of its length.
pub fn listing(bytes: &[u8]) -> Result<Listing, Refusal> {
    Listing::from_bytes(bytes).map_err(|refusal| {
        // There may be more bytes than were read.
        if bytes.len() < MOST_READ {
            return refusal;
        }
        refusal.with_words("the routine list has more than 128 bytes".to_string())
    })
}

/// The admitted listing in a file, or its refusal.
pub fn admitted(name: &OsStr) -> Result<Admitted, Failure> {
    let admitted = listing(&bytes(name)?).and_then(|listing| listing.admit());
    admitted.map_err(|refusal| Failure::of_refusal(name, &refusal))
}

/// The first line that isn't UTF-8.
fn not_utf8(error: &FromUtf8Error) -> TextError {
    let before = &error.as_bytes()[..error.utf8_error().valid_up_to()];
    let line = 1 + before.iter().filter(|byte| **byte == b'\n').count();
    TextError { line, reason: "not UTF-8".to_string() }
}

/// The bytes of a file, so many at most.
fn read(name: &OsStr, most: usize) -> Result<Vec<u8>, Failure> {
    let mut bytes = Vec::new();
    let read = open(name).and_then(|file| file.take(most as u64).read_to_end(&mut bytes));
    read.map(|_| bytes).map_err(|error| Failure::of_file(name, &error))
}

/// A file, or standard input, to read from.
fn open(name: &OsStr) -> io::Result<Box<dyn Read>> {
    if name == STANDARD {
        return Ok(Box::new(io::stdin().lock()));
    }
    Ok(Box::new(File::open(name)?))
}
