//! Shelf files: the library beside the reference, by hand, on listings of all shapes, and on files
//! that are damaged, cut, continued, random, or hold long numbers.

mod buffers;
mod by_hand;
mod checks;
mod compare;
mod damage;
mod ends;
mod explained;
mod lengths;
mod long;
#[allow(dead_code)]
#[path = "../common/memory.rs"]
mod memory;
#[path = "../common/random.rs"]
mod random;
mod samples;
mod scattered;
mod shapes;
mod shelvers;
#[allow(dead_code)]
#[path = "../common/stored.rs"]
mod stored;
mod tally;
