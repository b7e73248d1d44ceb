//! Shelf files written and opened by the library and by the reference, and how the library's time
//! grows with the file.

mod listings;

use crate::timing::{medians, timed, REPETITIONS};
use cesca::{open_into, shelve_into, BANK, MOST_LIST, SHEET, SHELF};
use listings::{full, half, of_length};
use reference::Listing;
use std::hint::black_box;
use std::io::{self, Write};

/// The calls that are timed together.
const BATCH: u32 = 1_000;

/// The bytes of the files that grow.
const LENGTHS: [usize; 3] = [512, 1_024, 2_048];

/// Prints the table of shelf files.
pub fn table(out: &mut impl Write) -> io::Result<()> {
    writeln!(out, "{BATCH} shelf files a repetition, median of {REPETITIONS}; nanoseconds a file")?;
    writeln!(out, "{:18} {:>10} {:>10} {:>10}", "file", "library", "reference", "lib/ref")?;
    for (name, listing) in [("listing A", Listing::a()), ("half full", half()), ("full", full())] {
        row(out, "write", name, || {
            [write_time(shelve_into, &listing), write_time(reference::shelve, &listing)]
        })?;
        let file = shelved(&listing);
        row(out, "open", name, || {
            [open_time(open_into, &file), open_time(reference::open, &file)]
        })?;
    }
    Ok(())
}

/// Prints the row of a call on a file; each repetition has the seconds of the library and of the
/// reference.
fn row(
    out: &mut impl Write,
    call: &str,
    name: &str,
    repetition: impl Fn() -> [f64; 2],
) -> io::Result<()> {
    let [library, reference, ratio] = medians(|| {
        let [library, reference] = repetition();
        [library, reference, library / reference]
    });
    let [library, reference] = [library, reference].map(nanoseconds);
    let name = format!("{call} {name}");
    writeln!(out, "{name:18} {library:10.1} {reference:10.1} {ratio:10.3}")
}

/// Prints how the library's time grows with the bytes of a file.
pub fn growth_table(out: &mut impl Write) -> io::Result<()> {
    writeln!(
        out,
        "library on longer shelf files, {BATCH} a repetition, median of {REPETITIONS}; \
         nanoseconds a byte"
    )?;
    writeln!(out, "{:18} {:>10} {:>10}", "bytes", "write", "open")?;
    for length in LENGTHS {
        let listing = of_length(length);
        let file = shelved(&listing);
        let times = medians(|| [write_time(shelve_into, &listing), open_time(open_into, &file)]);
        let [write, open] = times.map(|seconds| nanoseconds(seconds) / length as f64);
        writeln!(out, "{length:<18} {write:10.2} {open:10.2}")?;
    }
    Ok(())
}

/// The nanoseconds of one call, a batch taking these seconds.
fn nanoseconds(seconds: f64) -> f64 {
    seconds / f64::from(BATCH) * 1e9
}

/// The shelf file of a listing.
fn shelved(listing: &Listing) -> Vec<u8> {
    let Listing { opcodes, arguments, sheet, list } = listing;
    let mut file = vec![0; SHELF];
    let length = shelve_into(opcodes, arguments, sheet, list, &mut file);
    file.truncate(length.expect("nothing to refuse"));
    file
}

/// The seconds of a batch of writing a listing's file.
fn write_time<W, E>(write: W, listing: &Listing) -> f64
where
    W: Fn(&[u8], &[u8], &[u8], &[u8], &mut [u8]) -> Result<usize, E>,
{
    let mut file = [0; SHELF];
    let batch = || {
        for _ in 0..BATCH {
            let Listing { opcodes, arguments, sheet, list } = black_box(listing);
            let _ = black_box(write(opcodes, arguments, sheet, list, black_box(&mut file)));
        }
    };
    timed(batch).1
}

/// The seconds of a batch of opening a file.
fn open_time<O, E>(open: O, file: &[u8]) -> f64
where
    O: Fn(&[u8], &mut [u8], &mut [u8], &mut [u8], &mut [u8]) -> Result<usize, E>,
{
    let (mut opcodes, mut arguments) = ([0; BANK], [0; BANK]);
    let (mut sheet, mut list) = ([0; SHEET], [0; MOST_LIST]);
    let batch = || {
        for _ in 0..BATCH {
            let (opcodes, arguments) = (black_box(&mut opcodes), black_box(&mut arguments));
            let (sheet, list) = (black_box(&mut sheet), black_box(&mut list));
            let _ = black_box(open(black_box(file), opcodes, arguments, sheet, list));
        }
    };
    timed(batch).1
}

#[cfg(test)]
mod tests {
    use super::*;

    #[test]
    fn files_have_the_lengths_that_are_told() {
        let lengths = [Listing::a(), half(), full()].map(|listing| shelved(&listing).len());
        assert_eq!(lengths, [51, 2 + 128 * 7 + 1 + 64 * 2, 2_051]);
        for length in LENGTHS.into_iter().chain(500..=2_051) {
            assert_eq!(shelved(&of_length(length)).len(), length);
        }
    }
}
