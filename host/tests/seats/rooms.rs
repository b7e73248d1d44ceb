//! Random rooms, 60,000 of them: library and reference agree on all that their turns answer and
//! leave.

use crate::compare::compared;
use crate::random::{each_case, Random};
use crate::random_rooms::{given, room, slice};
use crate::room::Room;
use crate::tally::Tally;

/// The rooms.
const ROOMS: u64 = 60_000;

/// Makes up to eight turns of a room, from the seat that the one before gave or from another.
fn play(random: &mut Random, mut room: Room, tally: &mut Tally) {
    let mut from = given(random);
    for _ in 0..1 + random.below(8) {
        let slice = slice(random);
        let (answer, after) = compared(&room, slice, from);
        tally.add(&room, slice, from, answer, &after);
        from = match answer {
            Ok(Some(turn)) if random.once_in(2) => turn.next,
            _ => given(random),
        };
        room = after;
    }
}

#[test]
fn turns_of_random_rooms_are_alike() {
    let mut tally = Tally::default();
    each_case(ROOMS, |random| {
        let room = room(random);
        play(random, room, &mut tally);
    });
    let Tally { counts, seats, stops, passed, far, slices, .. } = &tally;
    assert!(counts.iter().chain(seats).all(|count| *count >= 2_000), "{tally:?}");
    assert!(stops.iter().all(|count| *count >= 2_000), "{tally:?}");
    assert!([0, 2, 3].iter().all(|stop| passed[*stop] >= 10_000), "{tally:?}");
    assert!(far.iter().chain(slices).all(|count| *count >= 500), "{tally:?}");
    let Tally { nobody, continued, keys, lengths, no_roll, refusals, .. } = &tally;
    assert!([nobody, continued, keys].iter().all(|count| **count >= 5_000), "{tally:?}");
    assert!(lengths.iter().flatten().all(|count| *count >= 5_000), "{tally:?}");
    assert!(no_roll.iter().all(|count| *count >= 500), "{tally:?}");
    assert_eq!(*refusals, [0; 30], "{tally:?}");
}
