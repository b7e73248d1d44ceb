//! Busy runs: counters and page of the library beside the reference, by hand and at random, and
//! beside the library's own run.

mod buffers;
mod by_hand;
#[path = "../run/case.rs"]
mod case;
mod compare;
mod counted;
mod laws;
mod lines;
#[path = "../common/memory.rs"]
mod memory;
mod programs;
#[path = "../common/random.rs"]
mod random;
mod refusals;
mod runners;
mod runs;
mod tally;
mod texts;
#[path = "../run/writing.rs"]
mod writing;
