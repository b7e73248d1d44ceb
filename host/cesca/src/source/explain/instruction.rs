//! An instruction or macro that is none: its mnemonic, and what parts its operands. 24.

use super::quote::{quoted, shown};
use super::{operand, usage};

/// What is wrong with a line behind its label, if it is no instruction or macro.
pub fn flaw(instruction: &str) -> Option<String> {
    let (mnemonic, operands) = match instruction.split_once(' ') {
        Some((mnemonic, operands)) => (mnemonic, Some(operands)),
        None => (instruction, None),
    };
    if !usage::is_known(mnemonic) {
        return Some(unknown(mnemonic));
    }
    if let Some(flaw) = operands.and_then(commas) {
        return Some(flaw);
    }
    let operands: Vec<&str> = operands.into_iter().flat_map(|all| all.split(", ")).collect();
    let number = operands.iter().map(|operand| operand::parted(operand)).sum();
    usage::miscounted(mnemonic, number)
        .or_else(|| spaced(&operands))
        .or_else(|| single(mnemonic, &operands))
        .or_else(|| usage::misfit(mnemonic, &operands))
}

/// The first operands without a comma between them.
fn spaced(operands: &[&str]) -> Option<String> {
    let spaced = operands.iter().find(|operand| operand::parted(operand) > 1)?;
    Some(format!("{} lacks a comma", shown(spaced)))
}

/// What is wrong with the first operand that is wrong by itself.
fn single(mnemonic: &str, operands: &[&str]) -> Option<String> {
    let mut places = operands.iter().enumerate();
    places.find_map(|(at, operand)| {
        operand::flaw(operand, || usage::may_be_address(mnemonic, operands, at))
    })
}

/// What is wrong with a mnemonic that there isn't.
fn unknown(mnemonic: &str) -> String {
    let small = mnemonic.to_ascii_lowercase();
    if small != mnemonic && usage::is_known(&small) {
        return format!("the mnemonic is spelled {small}");
    }
    format!("there is no mnemonic {}", quoted(mnemonic.as_bytes()))
}

/// What is wrong with what parts the operands.
fn commas(operands: &str) -> Option<String> {
    let tight = operands.match_indices(',').any(|(at, _)| !operands[at + 1..].starts_with(' '));
    if operands.starts_with(',') || operands.ends_with(',') {
        Some("an operand is missing beside a comma".to_string())
    } else if operands.contains(" ,") {
        Some("a space stands before a comma".to_string())
    } else if tight {
        Some("no space follows a comma".to_string())
    } else {
        None
    }
}
