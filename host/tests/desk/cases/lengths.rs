//! Inputs that are too short or too long.

use super::Case;
use reference::Listing;

/// Listing A's file cut, or continued with zeros: 1, 2 and 3, and where the list is a good one.
pub fn cases() -> Vec<Case> {
    let of = |length| {
        let mut file = Listing::a().file();
        file.resize(length, 0);
        file
    };
    vec![
        // No opcodes at all.
        ("length-0", of(0)),
        // An opcode too few.
        ("length-255", of(255)),
        // No arguments.
        ("length-256", of(256)),
        // An argument too few.
        ("length-511", of(511)),
        // No sheet.
        ("length-512", of(512)),
        // Half a word too few.
        ("length-1023", of(1_023)),
        // An empty list.
        ("length-1024", of(1_024)),
        // Half a routine.
        ("length-1025", of(1_025)),
        // One routine, and the sheet names two.
        ("length-1026", of(1_026)),
        // A routine and a half.
        ("length-1027", of(1_027)),
        // 64 routines, of which routine 2 is the first whose entry is another's.
        ("length-1152", of(1_152)),
        // The most that is read: a list of 129 bytes.
        ("length-1153", of(1_153)),
        // A byte that isn't read.
        ("length-1154", of(1_154)),
        // Many bytes that aren't read.
        ("length-5000", of(5_000)),
    ]
}
