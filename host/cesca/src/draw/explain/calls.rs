//! Routines that call themselves, and more routines than a list can have.

use super::reach::Place;
use super::routine;
use cesca_types::MOST_ROUTINES;
use std::collections::BTreeSet;

/// A call, with the entries of the routine that makes it and of the one that is called.
#[derive(Clone, Copy)]
struct Call {
    by: u8,
    at: u8,
    of: u8,
}

/// A routine that calls itself, directly or by others, and the calls by which it does.
pub fn recursion(places: &[Place]) -> Option<String> {
    let calls = circle(&endless(places))?;
    let routine = routine(calls.first()?.by);
    let calls: Vec<String> = calls.iter().map(|call| call.at.to_string()).collect();
    Some(match calls.split_last()? {
        (only, []) => format!("{routine} calls itself, by the call at {only}"),
        (last, others) => {
            let others = others.join(", ");
            format!("{routine} calls itself, by the calls at {others} and {last}")
        }
    })
}

/// More routines than a list can have.
pub fn too_many(places: &[Place]) -> Option<String> {
    let entries: BTreeSet<u8> = places.iter().map(|place| place.standing.routine).collect();
    let number = entries.len();
    (number > MOST_ROUTINES)
        .then(|| format!("there are {number} routines, and a list has {MOST_ROUTINES} at most"))
}

/// The calls behind which others follow without end: of a routine that makes one of them itself.
fn endless(places: &[Place]) -> Vec<Call> {
    let call = |place: &Place| {
        let (by, at) = (place.standing.routine, place.instruction.at);
        place.instruction.called().map(|of| Call { by, at, of })
    };
    let mut calls: Vec<Call> = places.iter().filter_map(call).collect();
    loop {
        let callers: BTreeSet<u8> = calls.iter().map(|call| call.by).collect();
        let before = calls.len();
        calls.retain(|call| callers.contains(&call.of));
        if calls.len() == before {
            return calls;
        }
    }
}

/// Calls one after another, from a routine back to it, if there are any.
fn circle(endless: &[Call]) -> Option<Vec<Call>> {
    let mut way: Vec<Call> = Vec::new();
    let mut call = endless.first()?;
    loop {
        if let Some(start) = way.iter().position(|earlier| earlier.by == call.by) {
            return Some(way.split_off(start));
        }
        way.push(*call);
        call = endless.iter().find(|next| next.by == call.of)?;
    }
}
