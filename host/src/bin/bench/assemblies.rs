//! Texts assembled by the library and by the reference, and how the library's times grow.

use crate::sources::{assembled, labelled_bytes, plain};
use crate::timing::{medians, timed, REPETITIONS};
use cesca::{assemble_into, BANK};
use std::hint::black_box;
use std::io::{self, Write};

/// The assemblies that are timed together.
const BATCH: u32 = 200;

/// The bytes of the big texts without labels, the second twice the first.
const PLAIN: [usize; 2] = [500_000, 1_000_000];

/// The bytes of the big texts in which every line has a label and names one.
const LABELLED: [usize; 3] = [32_000, 64_000, 1_000_000];

/// Prints the table of assemblies.
pub fn table(out: &mut impl Write) -> io::Result<()> {
    writeln!(
        out,
        "{BATCH} assemblies a repetition, median of {REPETITIONS}; microseconds an assembly"
    )?;
    writeln!(out, "{:18} {:>10} {:>10} {:>10}", "text", "library", "reference", "lib/ref")?;
    for (name, text) in assembled() {
        let [library, reference, ratio] = medians(|| {
            let turns = [seconds(assemble_into, &text), seconds(reference::assemble, &text)];
            [turns[0], turns[1], turns[0] / turns[1]]
        });
        let [library, reference] = [library, reference].map(|time| time / f64::from(BATCH) * 1e6);
        writeln!(out, "{name:18} {library:10.1} {reference:10.1} {ratio:10.3}")?;
    }
    Ok(())
}

/// The seconds of a batch.
fn seconds<A, E>(assemble: A, text: &str) -> f64
where
    A: Fn(&[u8], &mut [u8], &mut [u8]) -> Result<usize, E>,
{
    let (mut opcodes, mut arguments) = ([0; BANK], [0; BANK]);
    let batch = || {
        for _ in 0..BATCH {
            let text = black_box(text.as_bytes());
            let _ = black_box(assemble(text, &mut opcodes, &mut arguments));
        }
    };
    timed(batch).1
}

/// Prints how the library's time grows with the bytes of a text.
pub fn growth_table(out: &mut impl Write) -> io::Result<()> {
    writeln!(out, "library on big texts, once each; milliseconds a text")?;
    writeln!(out, "{:18} {:>10} {:>10} {:>10}", "lines", "bytes", "time", "ns a byte")?;
    for bytes in PLAIN {
        big(out, "without labels", &plain(bytes))?;
    }
    for bytes in LABELLED {
        big(out, "all labelled", &labelled_bytes(bytes))?;
    }
    Ok(())
}

/// Prints the row of a big text.
fn big(out: &mut impl Write, name: &str, text: &str) -> io::Result<()> {
    let (seconds, bytes) = (time(text), text.len());
    let nanoseconds = seconds * 1e9 / bytes as f64;
    writeln!(out, "{name:18} {bytes:10} {:10.1} {nanoseconds:10.1}", seconds * 1e3)
}

/// The seconds that the library takes for a text.
fn time(text: &str) -> f64 {
    let (mut opcodes, mut arguments) = ([0; BANK], [0; BANK]);
    let call = || assemble_into(black_box(text.as_bytes()), &mut opcodes, &mut arguments);
    timed(call).1
}
