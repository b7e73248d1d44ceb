//! Admission: the library beside the reference, and what it promises of lists of runs.

mod allowed;
mod answer;
mod by_hand;
mod compare;
mod counts;
mod damage;
mod drawn;
mod explained;
mod filled;
mod former;
#[path = "../common/formerly.rs"]
mod formerly;
mod lists;
#[allow(dead_code)]
#[path = "../common/memory.rs"]
mod memory;
mod outcomes;
mod player;
#[path = "../common/random.rs"]
mod random;
mod row;
mod script;
mod words;
