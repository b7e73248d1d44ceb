//! `cesca busy`: where the steps of a run went.

use super::console::Console;
use super::failure::Failure;
use super::options::Options;
use super::run;
use cesca::{Board, Busy};
use std::io::Write;

/// Writes what a run of the admitted listing in a file reports, an empty line, and the page of its
/// busy addresses; of a run without a step, the report alone.
pub fn busy(console: &mut Console, options: &Options) -> Result<(), Failure> {
    let (board, Busy { report, page, .. }) = run::after_run(options, Board::run_busy)?;
    run::show(console, options, &report, board.roll())?;
    if !page.is_empty() {
        write!(console, "\n{page}")?;
    }
    Ok(())
}
