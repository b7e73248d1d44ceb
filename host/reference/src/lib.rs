//! Desk, machine, assembler, drawing, turns and shelf files written once more, from the papers
//! alone, to hold the proved library against.
//!
//! The instruction table is kept as text, letter for letter as the CESCA document prints it, and
//! read bit by bit. Speed is no aim here; a reader with the document beside the table is. The
//! assembler alone has its opcodes written out: the benchmark measures the library by it.

#![warn(missing_docs)]

mod admission;
mod alu;
mod busy;
mod desk;
mod drawing;
mod facts;
mod form;
mod instruction;
mod listing;
mod machine;
mod seats;
mod sheet;
mod shelf;
mod source;
mod text;

pub use admission::{admit, admit_by};
pub use alu::{alu, Function, Settles};
pub use busy::run_busy;
pub use desk::desk;
pub use drawing::{draw, hindrance, Hindrance};
pub use form::Form;
pub use instruction::Instruction;
pub use listing::Listing;
pub use machine::{run, run_watched, Step};
pub use seats::turn;
pub use sheet::{Routine, SheetWord};
pub use shelf::{open, shelve};
pub use source::{assemble, print};
