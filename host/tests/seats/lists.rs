//! Lists of hundreds of turns, each on what the one before left, with refused ones among them.

use crate::compare::compared;
use crate::faults::{faults, Call, Fault};
use crate::random::{each_case, Random};
use crate::random_rooms::{busy_room, given, slice};
use crate::room::Room;
use crate::tally::Tally;

/// The lists.
const LISTS: u64 = 600;

/// The turns of each.
const TURNS: u32 = 300;

/// Checks that both refuse a turn with a fault, and so leave all as it was.
fn refused(random: &mut Random, room: &Room, faults: &[Fault], tally: &mut Tally) {
    let good = Call { room: room.clone(), slice: slice(random), from: given(random) };
    let fault = &faults[random.below(faults.len() as u32) as usize];
    let mut bad = good.clone();
    fault.apply(&mut bad);
    // An empty buffer can't be one too short.
    if bad != good {
        let (answer, after) = compared(&bad.room, bad.slice, bad.from);
        assert_eq!(answer, Err(fault.number), "{}", fault.name);
        tally.add(&bad.room, bad.slice, bad.from, answer, &after);
    }
}

/// Makes the turns of a list: for the most part from the seat that the one before gave.
fn play(random: &mut Random, tally: &mut Tally) {
    let mut room = busy_room(random);
    let faults = faults(room.count);
    let mut from = given(random);
    for _ in 0..TURNS {
        if random.once_in(8) {
            refused(random, &room, &faults, tally);
        }
        let slice = slice(random);
        let (answer, after) = compared(&room, slice, from);
        tally.add(&room, slice, from, answer, &after);
        from = match answer {
            Ok(Some(turn)) if !random.once_in(4) => turn.next,
            _ => given(random),
        };
        room = after;
    }
}

#[test]
fn lists_of_turns_are_alike() {
    let mut tally = Tally::default();
    each_case(LISTS, |random| play(random, &mut tally));
    let Tally { counts, seats, stops, passed, continued, lengths, refusals, .. } = &tally;
    let ran: u64 = counts.iter().sum();
    assert!(ran >= LISTS * u64::from(TURNS) / 2, "{tally:?}");
    assert!(counts.iter().chain(seats).all(|count| *count >= 1_000), "{tally:?}");
    assert!(*continued >= 1_000, "{tally:?}");
    assert!(lengths.iter().flatten().all(|count| *count >= 1_000), "{tally:?}");
    // A stop other than spent comes once to a board.
    assert!([0, 2, 3].iter().all(|stop| stops[*stop] >= 50), "{tally:?}");
    assert!([0, 2, 3].iter().all(|stop| passed[*stop] >= 10_000), "{tally:?}");
    assert!([17, 18, 28, 29].iter().all(|number| refusals[*number] >= 300), "{tally:?}");
}
