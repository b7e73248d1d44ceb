//! What stands in the way of a drawing, in words.
//!
//! The library has decided by then, and is proved to decide rightly. What successors and calls
//! reach from address 0 stands in the same routine at the same depth on every sheet that is
//! admitted, so the first rule that it breaks is a reason. Where none is found, the general words
//! stay.

mod calls;
mod marks;
mod reach;
#[cfg(test)]
mod tests;

use crate::calls::decode;
use crate::instruction::Instruction;
use cesca_types::{Refusal, BANK};
use reach::reach;

/// The refusal 27 with what stands in the way, if it is found; any other as it is.
pub fn explained(refusal: Refusal, opcodes: &[u8], arguments: &[u8]) -> Refusal {
    let reason = (refusal.number() == 27).then(|| reason(opcodes, arguments)).flatten();
    match reason {
        Some(reason) => {
            let words = format!("{}: {reason}", refusal.words());
            refusal.with_words(words)
        }
        None => refusal,
    }
}

/// The first thing that stands in the way.
fn reason(opcodes: &[u8], arguments: &[u8]) -> Option<String> {
    let opcodes: &[u8; BANK] = opcodes.try_into().ok()?;
    let arguments: &[u8; BANK] = arguments.try_into().ok()?;
    let instruction = |at: u8| {
        let word = [opcodes[usize::from(at)], arguments[usize::from(at)]];
        Instruction::new(at, decode(word))
    };
    match reach(instruction) {
        Err(reason) => Some(reason),
        Ok(places) => marks::unsettled(&places)
            .or_else(|| calls::recursion(&places))
            .or_else(|| calls::too_many(&places)),
    }
}

/// A routine by its entry, since nothing is drawn that would number it.
fn routine(entry: u8) -> String {
    match entry {
        0 => "routine 0".to_string(),
        _ => format!("the routine at {entry}"),
    }
}
