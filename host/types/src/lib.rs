//! The words in which CESCA's library and its reference are asked and answer, and the limits that
//! both keep. Nothing here decides anything.

#![warn(missing_docs)]

mod answers;
mod busy;
mod drawing;
mod limits;
mod machine;
mod refusal;
mod seats;
mod source;

pub use answers::{AluAnswer, Class, Effect, Facts, Fields, Overflow};
pub use busy::{BusyReport, Records};
pub use drawing::Drawing;
pub use limits::{BANK, LINE, MOST_LIST, MOST_READ, MOST_ROUTINES, PAGE, SHEET, SHELF};
pub use limits::{FASTEST_CLOCK, MOST_CYCLES, MOST_SEATS, MOST_SLICE, MOST_STEPS};
pub use machine::{Flags, Lent, Report, State, Stop};
pub use refusal::Refusal;
pub use seats::{SeatLengths, Seats, Turn};
pub use source::Assembled;
