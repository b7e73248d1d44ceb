//! Turns of a room: the library beside the reference, by hand and at random, and what turns
//! promise of a seat.

mod admitted;
mod alone;
mod board;
mod boards;
mod by_hand;
#[allow(dead_code)]
#[path = "../run/case.rs"]
mod case;
mod compare;
mod fairness;
mod faults;
mod listings;
mod lists;
#[allow(dead_code)]
#[path = "../common/memory.rs"]
mod memory;
#[allow(dead_code)]
#[path = "../draw/programs.rs"]
mod programs;
#[path = "../common/random.rs"]
mod random;
mod random_rooms;
mod refusals;
mod room;
mod rooms;
#[path = "../draw/routines.rs"]
mod routines;
mod slices;
#[allow(dead_code)]
#[path = "../common/stored.rs"]
mod stored;
mod tally;
mod turners;
#[path = "../run/writing.rs"]
mod writing;
