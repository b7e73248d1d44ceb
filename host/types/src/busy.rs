//! The words of a run that keeps a page of busy addresses: what it is lent beside a run's own
//! buffers, and what it reports.

use crate::Report;

/// What a busy run is lent to record where its steps go.
#[derive(Debug)]
pub struct Records<'a> {
    /// A counter for each of the 256 addresses, set to how often it executed in the run.
    pub counters: &'a mut [u32],
    /// The page, [`PAGE`](crate::PAGE) bytes at least: a line for each address executed, and what
    /// lies past the lines is kept.
    pub page: &'a mut [u8],
}

/// What a busy run reports.
#[derive(Clone, Copy, Debug, PartialEq, Eq)]
pub struct BusyReport {
    /// What a run reports.
    pub report: Report,
    /// The lines of the page, one for each address executed.
    pub lines: usize,
}
