//! The writers and openers that are held against each other.

/// What a writer answers: the file's length, or the number of what is wrong.
pub type Shelved = Result<usize, u8>;

/// What an opener answers: the routines, or number and byte of what is wrong, 0 where it has no
/// byte.
pub type Opened = Result<usize, (u8, usize)>;

/// A writer of opcodes, arguments, sheet and list into a lent buffer.
pub type Writer = fn(&[u8], &[u8], &[u8], &[u8], &mut [u8]) -> Shelved;

/// An opener of a file into lent buffers: opcodes, arguments, sheet and list.
pub type Opener = fn(&[u8], &mut [u8], &mut [u8], &mut [u8], &mut [u8]) -> Opened;

/// The writers by name.
pub const WRITERS: [(&str, Writer); 2] =
    [("the library", shelve), ("the reference", reference::shelve)];

/// The openers by name.
pub const OPENERS: [(&str, Opener); 2] =
    [("the library", open), ("the reference", reference::open)];

/// The library's writer.
fn shelve(opcodes: &[u8], arguments: &[u8], sheet: &[u8], list: &[u8], out: &mut [u8]) -> Shelved {
    let answer = cesca::shelve_into(opcodes, arguments, sheet, list, out);
    answer.map_err(|refusal| refusal.number())
}

/// The library's opener.
fn open(
    file: &[u8],
    opcodes: &mut [u8],
    arguments: &mut [u8],
    sheet: &mut [u8],
    list: &mut [u8],
) -> Opened {
    let answer = cesca::open_into(file, opcodes, arguments, sheet, list);
    answer.map_err(|refusal| (refusal.number(), refusal.byte().unwrap_or(0)))
}
