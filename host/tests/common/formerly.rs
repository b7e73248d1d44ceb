//! Admission as it was before request 4, when V was unsettled after a register mov.

use cesca::Refusal;
use reference::{admit_by, Function, Listing};

/// The answer that a listing got.
pub fn admit_formerly(listing: &Listing) -> Result<(), Refusal> {
    let Listing { opcodes, arguments, sheet, list } = listing;
    admit_by(settled, opcodes, arguments, sheet, list)
}

/// Whether V was settled after a function of the ALU.
fn settled(function: Function) -> bool {
    function != Function::Mov && function.settles_overflow()
}
