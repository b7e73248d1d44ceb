//! Random programs, 200,000 in all: both drawers agree on answer, sheet and list, and what they draw
//! is admitted.
//!
//! Of the two near-sound kinds, routines as they are and with one byte changed, more than half of
//! the programs are drawn for: 70 and 45 in a hundred at least.

use crate::checks::drawn;
use crate::counts::Counts;
use crate::programs::Kind;
use crate::random::each_case;
use reference::Hindrance;

/// The programs of each kind.
const CASES: u64 = 50_000;

/// What the drawings for programs of a kind came to, once so many in a hundred are drawn for.
fn compared(kind: Kind, least: u64) -> Counts {
    let mut counts = Counts::default();
    each_case(CASES, |random| {
        let program = kind.program(random);
        counts.add(&program, drawn(&program).as_ref());
    });
    assert_eq!(counts.drawn + counts.refused, CASES);
    assert!(100 * counts.drawn >= least * CASES, "{counts:?}");
    counts
}

#[test]
fn routines_are_drawn_alike() {
    let counts = compared(Kind::Sound, 70);
    assert!(counts.refused > CASES / 5, "{counts:?}");
    let drawings = [counts.several, counts.most, counts.marked, counts.long];
    assert!(drawings.into_iter().all(|count| count > CASES / 25), "{counts:?}");
}

#[test]
fn damaged_routines_are_drawn_alike() {
    let counts = compared(Kind::Damaged, 45);
    assert!(counts.refused > CASES * 2 / 5, "{counts:?}");
    assert_eq!(counts.hindrances(400), Hindrance::ALL.len(), "{counts:?}");
}

#[test]
fn few_instructions_are_drawn_alike() {
    let counts = compared(Kind::Few, 18);
    assert!(counts.refused > CASES * 3 / 4, "{counts:?}");
    // There are too few words for more than 64 routines, mostly.
    assert!(counts.hindrances(20) >= Hindrance::ALL.len() - 1, "{counts:?}");
}

#[test]
fn any_bytes_are_drawn_alike() {
    let counts = compared(Kind::Any, 3);
    assert!(counts.refused > CASES * 9 / 10, "{counts:?}");
    assert!(counts.hindrances(300) >= 6, "{counts:?}");
}
