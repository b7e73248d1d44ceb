//! What is wrong with a shelf file that isn't opened, in words.
//!
//! The library has decided by then, and is proved to decide rightly. Words are looked for that fit
//! the number and the byte that it gave; where the file shows nothing of the kind, the general
//! words stay.

mod field;
mod number;
#[cfg(test)]
mod tests;

use super::ShelfRefusal;
use crate::lengths::of_buffers;
use crate::text::bytes;
use field::Field;
use number::{numbers, shown, value};

/// The refusal with what is wrong as far as the file and the lengths of the four buffers tell.
pub fn explained(refusal: ShelfRefusal, file: &[u8], lengths: [usize; 4]) -> ShelfRefusal {
    let words = match refusal.byte() {
        None => of_buffers(refusal.number(), lengths),
        Some(byte) => words(refusal.number(), byte, file),
    };
    match words {
        Some(words) => refusal.with_words(words),
        None => refusal,
    }
}

/// What is wrong with the number that begins at a byte of a file, if it is what this refusal's
/// number stands for.
fn words(number: u8, byte: usize, file: &[u8]) -> Option<String> {
    let (field, rest) = (Field::at(byte, file)?, file.get(byte..)?);
    let groups = numbers(rest).next().unwrap_or_default();
    match (number, field) {
        (_, Field::Rest) => (number == 31 && !rest.is_empty()).then(|| follows(rest.len())),
        (30, _) => form(field, groups),
        (31, _) => size(field, groups).or_else(|| least(field, file)),
        _ => None,
    }
}

/// 30: a number that is missing, cut off or longer than need be.
fn form(field: Field, groups: &[u8]) -> Option<String> {
    match groups {
        [] => Some(format!("the file ends before {field}")),
        [.., 128..=255] => Some(format!("{field} is cut off: {}", shown(groups))),
        [_, .., 0] => Some(format!("{field} is not in its shortest form: {}", shown(groups))),
        _ => None,
    }
}

/// 31: a whole number that its field doesn't have.
fn size(field: Field, groups: &[u8]) -> Option<String> {
    let range = field.range();
    let read = match (groups, value(groups)) {
        ([] | [.., 128..=255], _) => return None,
        (_, Some(value)) if range.contains(&value) => return None,
        (_, Some(value)) => value.to_string(),
        (_, None) => format!("a number of {} groups", groups.len()),
    };
    Some(format!("{field} is {read}, not {} to {}", range.start(), range.end()))
}

/// 31: an n that is greater than it must be.
fn least(field: Field, file: &[u8]) -> Option<String> {
    let mut numbers = numbers(file);
    let n = numbers.next().and_then(value).filter(|_| field == Field::N)?;
    let n = usize::try_from(n).ok()?;
    let parts: Vec<&[u8]> = numbers.take(3 * n).collect();
    let last = parts.iter().rposition(|part| *part != [0]);
    let least = last.map_or(0, |part| part / 3 + 1);
    (least < n)
        .then(|| format!("n is {n}, where {least} is the least: all is 0 from address {least} on"))
}

/// 31: so many bytes behind the last number.
fn follows(length: usize) -> String {
    let follow = if length == 1 { "follows" } else { "follow" };
    format!("{} {follow} the last number", bytes(length))
}
