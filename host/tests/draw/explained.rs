//! Random programs, 20,000 in all: wherever nothing is drawn, it is told what stands in the way.

use crate::programs::{Kind, Program};
use crate::random::each_case;
use cesca::Refusal;
use reference::{hindrance, Hindrance};

/// The programs of each kind.
const CASES: u64 = 5_000;

/// How what is told of each thing that can stand in the way begins, and what stands in it.
const TOLD: [(Hindrance, [&str; 2]); 10] = [
    (Hindrance::TooManyRoutines, ["there are ", ", and a list has 64 at most"]),
    (Hindrance::TwoRoutines, ["address ", " is reached in "]),
    (Hindrance::TwoDepths, ["address ", " is reached at depth "]),
    (Hindrance::JumpRegister, ["jmp R", " could go anywhere"]),
    (Hindrance::Unsettled, ["j", " tests V, which may be unsettled there"]),
    (Hindrance::NothingPushed, ["", " has nothing "]),
    (Hindrance::ReturnFromStart, ["ret at ", ", in routine 0"]),
    (Hindrance::ReturnWithBytes, ["ret at ", " still has "]),
    (Hindrance::PastTheEnd, ["", " would go on past address 255"]),
    (Hindrance::Recursion, ["", " calls itself, by the call"]),
];

/// What the reference may find and the library tell where both stand in the way: they ask for these
/// in another order.
const BOTH: [(Hindrance, Hindrance); 4] = [
    (Hindrance::PastTheEnd, Hindrance::JumpRegister),
    (Hindrance::PastTheEnd, Hindrance::NothingPushed),
    (Hindrance::TooManyRoutines, Hindrance::Unsettled),
    (Hindrance::TooManyRoutines, Hindrance::Recursion),
];

/// How often each thing was told.
#[derive(Debug, Default)]
struct Counts {
    refused: u64,
    told: [u64; TOLD.len()],
}

impl Counts {
    /// Counts what is told of a program for which nothing is drawn.
    fn add(&mut self, program: &Program, refusal: &Refusal) {
        let told = reason(refusal);
        let fits = |[start, part]: [&str; 2]| told.starts_with(start) && told.contains(part);
        let kinds: Vec<usize> = (0..TOLD.len()).filter(|kind| fits(TOLD[*kind].1)).collect();
        let [kind] = kinds[..] else { panic!("{refusal}: {kinds:?}") };
        self.told[kind] += 1;
        self.refused += 1;
        let found = hindrance(&program.opcodes, &program.arguments).expect("a hindrance");
        let told = TOLD[kind].0;
        assert!(told == found || BOTH.contains(&(found, told)), "{refusal}: {found:?}");
    }
}

/// What is told behind the general words of 27.
fn reason(refusal: &Refusal) -> &str {
    let general = Refusal::of_call(27);
    assert_eq!((refusal.number(), refusal.place()), (27, None), "{refusal}");
    let behind = refusal.words().strip_prefix(general.words());
    let reason = behind.and_then(|words| words.strip_prefix(": ")).expect("a reason");
    assert!(!reason.is_empty() && !reason.contains(char::is_control), "{reason:?}");
    reason
}

/// What is told of the programs of a kind.
fn explained(kind: Kind) -> Counts {
    let mut counts = Counts::default();
    each_case(CASES, |random| {
        let program = kind.program(random);
        if let Err(refusal) = cesca::draw(&program.opcodes, &program.arguments) {
            counts.add(&program, &refusal);
        }
    });
    counts
}

/// What is told of the programs of a kind, once it is told of so many.
fn checked(kind: Kind, least: u64) -> Counts {
    let counts = explained(kind);
    assert!(counts.refused >= least, "{kind:?} {counts:?}");
    counts
}

#[test]
fn every_refusal_to_draw_is_explained() {
    let damaged = checked(Kind::Damaged, CASES * 2 / 5);
    assert!(damaged.told.iter().all(|count| *count >= 40), "{damaged:?}");
    for (kind, least) in [(Kind::Sound, 20), (Kind::Few, 75), (Kind::Any, 90)] {
        checked(kind, CASES * least / 100);
    }
}
