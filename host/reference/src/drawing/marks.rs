//! Where V can be marked.

use super::reach::{Place, Reach};
use super::Hindrance;
use cesca_types::{Class, Effect, BANK};
use std::mem;

/// Whether each address is marked in the sheet with the most marks.
///
/// Every address but an entry is marked at first. A mark is then lost wherever some address leads
/// to it without a settled V, until no more are lost: no admitted sheet has one of those.
pub fn marks(reach: &Reach) -> Result<[bool; BANK], Hindrance> {
    let mut marks = [false; BANK];
    for place in reach.places() {
        marks[usize::from(place.at)] = !place.is_entry();
    }
    let mut open: Vec<Place> = reach.places().collect();
    while let Some(place) = open.pop() {
        if settled_after(&place, marks[usize::from(place.at)]) {
            continue;
        }
        for to in place.successors() {
            if mem::take(&mut marks[usize::from(to)]) {
                open.push(reach.place(to));
            }
        }
    }
    let unsettled = |place: Place| place.facts.tests && !marks[usize::from(place.at)];
    if reach.places().any(unsettled) {
        return Err(Hindrance::Unsettled);
    }
    Ok(marks)
}

/// Whether V may be marked behind a place that is marked itself or not.
fn settled_after(place: &Place, marked: bool) -> bool {
    let settled = match place.facts.overflow {
        Effect::Settles => true,
        Effect::Leaves => marked,
        Effect::Unsettles => false,
    };
    settled && place.facts.class != Class::Call
}
