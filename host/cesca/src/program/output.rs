//! The files that the program makes.

use super::console::Console;
use super::failure::Failure;
use super::input;
use std::ffi::OsStr;
use std::fs::{self, File, Metadata};
use std::io::{self, Write};
use std::os::fd::AsFd;
use std::os::unix::fs::MetadataExt;

/// Writes the file that a text or another file is made into, unless it would replace that.
pub fn write(
    console: &mut Console,
    from: &OsStr,
    file: &OsStr,
    bytes: &[u8],
) -> Result<(), Failure> {
    if same(from, file) {
        let reason = "the file would replace what it is made from";
        return Err(Failure::File(format!("{}: {reason}", file.display())));
    }
    if file == input::STANDARD {
        console.write_all(bytes)?;
        return Ok(());
    }
    fs::write(file, bytes).map_err(|error| Failure::of_file(file, &error))
}

/// Whether the file that would be made is the one that is read: by their paths, by links, or
/// because standard input reads it.
fn same(from: &OsStr, file: &OsStr) -> bool {
    // Standard output is no file by its name.
    if file == input::STANDARD {
        return false;
    }
    let read = if from == input::STANDARD { standard_input() } else { fs::metadata(from) };
    let [read, made] = [read, fs::metadata(file)].map(|found| found.ok().and_then(identity));
    read.is_some() && read == made
}

/// What standard input reads.
fn standard_input() -> io::Result<Metadata> {
    File::from(io::stdin().as_fd().try_clone_to_owned()?).metadata()
}

/// The device and the inode of a plain file: a terminal or /dev/null has nothing to lose.
fn identity(metadata: Metadata) -> Option<(u64, u64)> {
    metadata.is_file().then(|| (metadata.dev(), metadata.ino()))
}
