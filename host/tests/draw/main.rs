//! Sheets drawn for members: the library beside the reference, by hand, on programs of all kinds,
//! against every sheet of tiny programs, and against the sheets that members drew themselves.

#[path = "../admit/allowed.rs"]
mod allowed;
mod buffers;
mod by_hand;
mod checks;
mod compare;
mod counts;
mod drawers;
#[path = "../admit/drawn.rs"]
mod drawn;
mod explained;
#[path = "../admit/filled.rs"]
mod filled;
mod lengths;
mod members;
#[allow(dead_code)]
#[path = "../common/memory.rs"]
mod memory;
mod programs;
#[path = "../common/random.rs"]
mod random;
mod routines;
mod search;
mod tiny;
