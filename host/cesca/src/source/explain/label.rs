//! Labels: what is wrong with one by itself (24), and one that is missing or given twice (25).

use super::due::Due;
use super::quote::{quoted, shown};
use super::usage::{is_line, spelled};
use super::{lines, operand};

/// The most letters of a label.
const MOST: usize = 12;

/// What is wrong with a label, given or used.
pub fn flaw(name: &str) -> Option<String> {
    if name.is_empty() {
        Some("no label stands before the colon".to_string())
    } else if !name.bytes().all(|byte| byte.is_ascii_alphabetic()) {
        Some(format!("{} is no label: a label has letters alone", shown(name)))
    } else if name.len() > MOST {
        let letters = name.len();
        Some(format!("{} has {letters} letters: a label has {MOST} at most", shown(name)))
    } else {
        None
    }
}

/// 25: the label that a line gives again, or the one that it uses and no line gives.
pub fn words(text: &[u8], number: usize) -> Option<String> {
    let line = lines(text).nth(number.checked_sub(1)?)?;
    let line = str::from_utf8(line).ok()?;
    repeated(text, number, line).or_else(|| missing(text, line))
}

/// The label that a line gives again.
fn repeated(text: &[u8], number: usize, line: &str) -> Option<String> {
    let (label, _) = line.split_once(": ")?;
    let first = giving(text, |given| given == label.as_bytes())?;
    let (line, label) = (quoted(line.as_bytes()), shown(label));
    (first < number).then(|| format!("{line} gives the label {label}, which line {first} gave"))
}

/// The label that a line uses and no line gives.
fn missing(text: &[u8], line: &str) -> Option<String> {
    let label = used(line)?;
    if giving(text, |given| given == label.as_bytes()).is_some() {
        return None;
    }
    let alike = giving(text, |given| given.eq_ignore_ascii_case(label.as_bytes()));
    let alike = alike.map(|line| format!(": line {line} gives one of another case"));
    let (line, label) = (quoted(line.as_bytes()), shown(label));
    Some(format!("{line} uses the label {label}, which no line gives{}", alike.unwrap_or_default()))
}

/// The label that a line uses: the operand in whose place any label may stand.
fn used(line: &str) -> Option<&str> {
    let instruction = line.split_once(": ").map_or(line, |(_, instruction)| instruction);
    let (mnemonic, operands) = instruction.split_once(' ')?;
    let operands: Vec<&str> = operands.split(", ").collect();
    let used = (0..operands.len()).find(|at| {
        let mut tried = operands.clone();
        let due = if operands[*at].starts_with('[') { Due::AtAddress } else { Due::Address };
        tried[*at] = due.sample();
        flaw(operand::inside(operands[*at])).is_none() && is_line(&spelled(mnemonic, &tried))
    });
    used.map(|at| operand::inside(operands[at]))
}

/// The first line that gives a label of this kind.
fn giving(text: &[u8], kind: impl Fn(&[u8]) -> bool) -> Option<usize> {
    let mut labels =
        lines(text).map(|line| line.iter().position(|byte| *byte == b':').map(|at| &line[..at]));
    labels.position(|label| label.is_some_and(&kind)).map(|at| at + 1)
}
