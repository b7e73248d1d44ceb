//! What is wrong with a text that isn't assembled, in words.
//!
//! The library has decided by then, and is proved to decide rightly. Words are looked for that fit
//! the number and the line that it gave; where the text shows nothing of the kind, the general
//! words stay. What a mnemonic takes is asked of the library too: `usage` has the operands that go
//! together somewhere, and the library tells with which mnemonics.

mod due;
mod instruction;
mod label;
mod line;
mod operand;
mod quote;
#[cfg(test)]
mod tests;
mod usage;

use super::SourceRefusal;
use crate::text::bytes;
use cesca_types::BANK;
use quote::quoted;

/// The refusal with what is wrong as far as the text and the lengths of the two banks tell.
pub fn explained(refusal: SourceRefusal, text: &[u8], banks: [usize; 2]) -> SourceRefusal {
    match words(&refusal, text, banks) {
        Some(words) => refusal.with_words(words),
        None => refusal,
    }
}

/// What is wrong, if it is what the number stands for.
fn words(refusal: &SourceRefusal, text: &[u8], banks: [usize; 2]) -> Option<String> {
    match (refusal.number(), refusal.line()) {
        (1, None) => bank(banks),
        (24, Some(number)) => {
            let line = lines(text).nth(number.checked_sub(1)?)?;
            let flaw = line::flaw(line)?;
            Some(format!("{} is no instruction or macro: {flaw}", quoted(line)))
        }
        (25, Some(number)) => label::words(text, number),
        (26, None) => Some(format!("{} lines make more than {BANK} words", lines(text).count())),
        _ => None,
    }
}

/// 1: the first bank of another length.
fn bank(banks: [usize; 2]) -> Option<String> {
    let mut named = ["opcodes", "arguments"].into_iter().zip(banks);
    let (name, length) = named.find(|(_, length)| *length != BANK)?;
    Some(format!("the bank of {name} has {}, not {BANK}", bytes(length)))
}

/// The lines of a text, without their line feeds.
fn lines(text: &[u8]) -> impl Iterator<Item = &[u8]> {
    let lines = text.split_inclusive(|byte| *byte == b'\n');
    lines.map(|line| line.strip_suffix(b"\n").unwrap_or(line))
}
