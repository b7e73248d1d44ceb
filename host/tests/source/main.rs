//! Listings as text: the library's printer and assembler beside the reference, by hand, over all
//! words and forms, and on any text at all.

mod bad_lines;
mod banks;
mod big;
mod bytes;
mod compare;
mod damage;
mod drawn;
mod forms;
mod lengths;
mod macros;
#[allow(dead_code)]
#[path = "../common/memory.rs"]
mod memory;
#[path = "../common/random.rs"]
mod random;
mod sides;
mod texts;
mod words;
