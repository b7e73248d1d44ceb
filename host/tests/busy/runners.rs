//! The busy runs that are held against each other.

use cesca::{BusyReport, Lent, Records, Refusal, State};

/// What a busy run answers: report and lines, or the number of what is wrong.
pub type Answer = Result<BusyReport, u8>;

/// A busy run with what it is lent, its budget and the state to start from.
pub type Runner = fn(Lent<'_>, Records<'_>, u32, State) -> Result<BusyReport, Refusal>;

/// The busy runs by name.
pub const RUNNERS: [(&str, Runner); 2] =
    [("the library", cesca::run_busy), ("the reference", reference::run_busy)];
