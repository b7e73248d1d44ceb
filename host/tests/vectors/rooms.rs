//! Rooms as the cases of turns spell them.

use crate::blocks::Block;
use crate::memory::Guarded;
use crate::room::{seated, Room};
use crate::run;
use crate::values::{number, numbers, state};
use cesca::{SeatLengths, Seats, State, MOST_SEATS};

/// What a case lends, states apart.
pub const LENT: [&str; 10] = [
    "seats",
    "op",
    "arg",
    "data",
    "stack",
    "keys",
    "rolls",
    "key-lengths",
    "roll-lengths",
    "roll-positions",
];

/// What it says of what is left after the last turn, if a seat ran.
pub const LEFT: [&str; 5] =
    ["data-after", "stack-after", "rolls-after", "roll-positions-after", "state-after"];

/// The room that a case lends.
pub fn lent(block: &Block) -> Result<Room, String> {
    let memory = run::lent(block, "rolls")?;
    let count: usize = number(block.value("seats")?)?;
    let states = states(block, "state")?;
    if (1..=MOST_SEATS).contains(&count) && states.len() != count {
        return Err(format!("{} states of {count} seats", states.len()));
    }
    let each = |key| each_of(states.len(), numbers(block.value(key)?)?, usize::MAX);
    let lengths = SeatLengths { keys: each("key-lengths")?, rolls: each("roll-lengths")? };
    let roll_positions = each("roll-positions")?;
    let states = each_of(states.len(), states.clone(), State::start())?;
    Ok(Room { count, memory, lengths, seats: Seats { states, roll_positions } })
}

/// The states that stand behind a key.
fn states(block: &Block, key: &str) -> Result<Vec<State>, String> {
    block.values(key)?.into_iter().map(state).collect()
}

/// What so many seats have, and `other` at all places past them.
fn each_of<T: Copy>(seats: usize, own: Vec<T>, other: T) -> Result<[T; MOST_SEATS], String> {
    if own.len() != seats || seats > MOST_SEATS {
        return Err(format!("{} where {seats} seats are", own.len()));
    }
    Ok(seated(own, other))
}

/// The room that a case wants after the last turn, where this one was before.
pub fn left(block: &Block, before: &Room, ran: bool) -> Result<Room, String> {
    for key in LEFT {
        if !ran && !block.values(key)?.is_empty() {
            return Err(format!("{key} though no seat ran"));
        }
    }
    let mut after = Room { memory: run::left(block, &before.memory)?, ..before.clone() };
    if let Some(rolls) = block.optional("rolls-after")? {
        after.memory.roll = Guarded::new(numbers(rolls)?);
    }
    let count = block.values("state")?.len();
    if let Some(positions) = block.optional("roll-positions-after")? {
        after.seats.roll_positions = each_of(count, numbers(positions)?, usize::MAX)?;
    }
    if ran {
        after.seats.states = each_of(count, states(block, "state-after")?, State::start())?;
    }
    Ok(after)
}
