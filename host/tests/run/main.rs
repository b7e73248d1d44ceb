//! Runs and running times: the library and the machines it is measured by beside the reference,
//! by hand and at random.

mod by_hand;
mod case;
mod jumps;
mod laws;
#[path = "../common/memory.rs"]
mod memory;
mod moves;
#[path = "../common/random.rs"]
mod random;
mod refusals;
mod runs;
mod shifts;
mod stack;
mod stops;
mod tally;
mod time;
mod transfers;
mod worked;
mod writing;

use baselines::{plain, predecoded};
use cesca::{Lent, Refusal, Report, State};

/// A machine: what a run reports, or why it is refused.
type Machine = fn(Lent<'_>, u32, State) -> Result<Report, Refusal>;

/// The machines by name.
const MACHINES: [(&str, Machine); 4] = [
    ("the library", cesca::run),
    ("the reference", reference::run),
    ("the plain machine", plain::run),
    ("the predecoded machine", predecoded::run),
];
