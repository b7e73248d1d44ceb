//! Admissions a second of the library and of the reference, listing by listing.

use crate::listings::listings;
use crate::timing::{medians, timed, REPETITIONS};
use cesca::{admit, Refusal};
use reference::Listing;
use std::hint::black_box;
use std::io::{self, Write};

/// The admissions that are timed together.
pub const BATCH: u32 = 2_000;

/// Prints the table of admissions.
pub fn table(out: &mut impl Write) -> io::Result<()> {
    writeln!(
        out,
        "{BATCH} admissions a repetition, median of {REPETITIONS}; thousands of admissions a second"
    )?;
    writeln!(out, "{:18} {:>10} {:>10} {:>10}", "listing", "library", "reference", "lib/ref")?;
    for (name, listing) in listings() {
        let [library, reference, ratio] = medians(|| {
            let turns = [seconds(admit, &listing), seconds(reference::admit, &listing)];
            [turns[0], turns[1], turns[0] / turns[1]]
        });
        let [library, reference] = [library, reference].map(|time| f64::from(BATCH) / time / 1e3);
        writeln!(out, "{name:18} {library:10.1} {reference:10.1} {ratio:10.3}")?;
    }
    Ok(())
}

/// The seconds of a batch.
pub fn seconds<A>(admit: A, listing: &Listing) -> f64
where
    A: Fn(&[u8], &[u8], &[u8], &[u8]) -> Result<(), Refusal>,
{
    let batch = || {
        for _ in 0..BATCH {
            let Listing { opcodes, arguments, sheet, list } = black_box(listing);
            let _ = black_box(admit(opcodes, arguments, sheet, list));
        }
    };
    timed(batch).1
}
