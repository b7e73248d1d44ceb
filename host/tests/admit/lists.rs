//! Lists of runs of admitted listings, watched step by step, with two fillings of the stack.

use crate::answer::answer;
use crate::damage::Damage;
use crate::filled::admitted;
use crate::memory::Memory;
use crate::outcomes::Outcomes;
use crate::player::Player;
use crate::random::{each_case, Random};
use crate::row::Row;
use crate::script::{banks, start, Call};
use cesca::Stop;
use reference::Listing;

/// The lists made.
const LISTS: u64 = 10_000;

/// Checks that two players are alike but for stack bytes that were never stored to.
fn check_alike(players: [&Player; 2], row: &Row, old: [&Memory; 2]) {
    let [left, right] = players.map(|player| &player.memory);
    assert_eq!(players[0].state, players[1].state);
    assert!(left.ram == right.ram, "ram {:?}", left.ram.differences(&right.ram));
    assert!(left.roll == right.roll, "roll {:?}", left.roll.differences(&right.roll));
    for (at, stored) in row.stored.iter().enumerate() {
        let [one, other] = [left, right].map(|memory| memory.stack.inner()[at]);
        let kept = old.map(|memory| memory.stack.inner()[at]);
        assert!(if *stored { one == other } else { [one, other] == kept }, "stack byte {at}");
    }
}

/// Plays a list with two fillings of the stack, and watches every step of the first.
fn play(random: &mut Random, listing: &Listing, outcomes: &mut Outcomes) {
    let state = start(random);
    let first = Player { memory: banks(random, listing), state };
    let mut second = first.clone();
    second.memory.stack = banks(random, listing).stack;
    let old = [first.memory.clone(), second.memory.clone()];
    let mut players = [first, second];
    let mut row = Row::new(listing);
    for _ in 0..1 + random.below(6) {
        let call = Call::random(random);
        let mut watched = players[0].clone();
        let [found, other] = players.each_mut().map(|player| player.call(&call));
        assert_eq!(found, other, "{call:?} with another stack");
        if let Ok(report) = &found {
            assert_ne!(report.stop, Stop::Unsettled, "{call:?}");
            row.begin(call.restart.is_some());
            let steps = watched.watched(&call, |found| {
                row.step(found);
                outcomes.step(found.instruction, row.is_full());
            });
            assert_eq!(steps, *report, "{call:?} step by step");
            assert!(watched.memory == players[0].memory, "{call:?} step by step");
        }
        check_alike(players.each_ref(), &row, old.each_ref());
        outcomes.answer(&found);
    }
}

/// An admitted listing: filled as its sheet allows, then changed here and there while the library
/// still admits it.
fn listing(random: &mut Random) -> Listing {
    let mut listing = admitted(random);
    assert_eq!(answer(&listing), Ok(()), "{listing:?}");
    for _ in 0..random.below(24) {
        let mut changed = listing.clone();
        random.pick(&Damage::ALL).apply(&mut changed, random);
        if answer(&changed).is_ok() {
            listing = changed;
        }
    }
    listing
}

#[test]
fn lists_of_runs_keep_what_admission_promises() {
    let mut outcomes = Outcomes::default();
    each_case(LISTS, |random| {
        let listing = listing(random);
        play(random, &listing, &mut outcomes);
    });
    outcomes.check();
}
