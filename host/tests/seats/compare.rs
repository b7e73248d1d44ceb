//! Library and reference on one turn.

use crate::room::Room;
use crate::turners::{Answer, TURNERS};

/// What both turns answer and how they leave the room, once it is found to be alike; where no seat
/// ran, each must leave all as it was.
pub fn compared(before: &Room, slice: u32, from: usize) -> (Answer, Room) {
    let [(library, found), (reference, wanted)] =
        TURNERS.map(|(_, turner)| before.turned(turner, slice, from));
    let inputs = || format!("slice {slice} from seat {from} in {before:?}");
    assert_eq!(library, reference, "{}", inputs());
    if !matches!(library, Ok(Some(_))) {
        for ((name, _), left) in TURNERS.iter().zip([&found, &wanted]) {
            assert!(left == before, "{name} wrote: {} {}", left.differences(before), inputs());
        }
    }
    assert!(found == wanted, "{} {}", found.differences(&wanted), inputs());
    (library, found)
}
