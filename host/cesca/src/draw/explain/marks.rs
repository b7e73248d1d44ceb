//! Where V can be marked, and tests of V where it can't.

use super::reach::Place;
use cesca_types::BANK;

/// The first test of V where no sheet can mark it.
pub fn unsettled(places: &[Place]) -> Option<String> {
    let marked = marks(places);
    let tests = |place: &&Place| place.instruction.facts.tests && !marks_here(&marked, place);
    let place = places.iter().find(tests)?;
    Some(format!("{place} tests V, which may be unsettled there"))
}

/// The addresses at which V can be marked: not the entries, and not what follows a place from
/// which V may come unsettled.
fn marks(places: &[Place]) -> [bool; BANK] {
    let mut marked = [true; BANK];
    for place in places {
        marked[usize::from(place.standing.routine)] = false;
    }
    loop {
        let leaving = places.iter().filter(|it| !it.instruction.settles(marks_here(&marked, it)));
        let ends = leaving.flat_map(|place| place.instruction.successors()).map(usize::from);
        let lost: Vec<usize> = ends.filter(|at| marked[*at]).collect();
        if lost.is_empty() {
            return marked;
        }
        for at in lost {
            marked[at] = false;
        }
    }
}

/// Whether V can be marked at a place.
fn marks_here(marked: &[bool; BANK], place: &Place) -> bool {
    marked[usize::from(place.instruction.at)]
}
