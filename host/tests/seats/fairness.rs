//! A seat that can go on runs within as many turns as there are seats, each turn being given the
//! seat that the one before gave.

use crate::random::{each_case, Random};
use crate::random_rooms::{busy_room, given, room, slice};
use crate::room::Room;
use cesca::{turn, MOST_SEATS};

/// The rooms.
const ROOMS: u64 = 6_000;

/// Makes turns of a room, three times round at least, and checks how long each seat waits that can
/// go on; yields whether some seat waited for all others.
fn play(random: &mut Random, mut room: Room) -> bool {
    let mut waits = [0; MOST_SEATS];
    let mut from = given(random);
    let mut longest = 0;
    for _ in 0..3 * room.count + 2 {
        let goes_on: Vec<bool> =
            room.boards().iter().map(|board| board.next_stop().is_none()).collect();
        for (wait, goes_on) in waits.iter_mut().zip(&goes_on) {
            *wait += usize::from(*goes_on);
        }
        let (answer, after) = room.turned(turn, slice(random), from);
        let Some(turn) = answer.expect("nothing to refuse") else {
            assert!(!goes_on.contains(&true), "somebody could go on in {room:?}");
            break;
        };
        assert!(goes_on[turn.seat], "seat {} couldn't go on in {room:?}", turn.seat);
        waits[turn.seat] = 0;
        let most = waits.into_iter().max().unwrap_or(0);
        assert!(most < room.count, "waits of {waits:?} turns in {room:?}");
        longest = longest.max(most + 1);
        (from, room) = (turn.next, after);
    }
    room.count > 1 && longest == room.count
}

#[test]
fn who_can_go_on_runs_within_as_many_turns_as_there_are_seats() {
    let mut waited = 0;
    each_case(ROOMS, |random| {
        let room = if random.once_in(2) { room(random) } else { busy_room(random) };
        waited += u64::from(play(random, room));
    });
    assert!(waited >= ROOMS / 10, "only in {waited} rooms a seat waited for all others");
}
