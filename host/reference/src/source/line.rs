//! Lines taken apart.

use super::operand::{is_label, Operand};
use super::statement::Statement;
use std::str;

/// The most operands that a mnemonic has.
const MOST_OPERANDS: usize = 3;

/// A line: its label, and the instruction or macro on it.
#[derive(Debug, PartialEq, Eq)]
pub struct Line<'a> {
    pub label: Option<&'a str>,
    pub statement: Statement<'a>,
}

impl<'a> Line<'a> {
    /// The line with this text, if it is one.
    pub fn read(line: &'a [u8]) -> Option<Line<'a>> {
        let line = str::from_utf8(line).ok()?;
        let Some((label, rest)) = line.split_once(':') else {
            return Some(Line { label: None, statement: statement(line)? });
        };
        let rest = rest.strip_prefix(' ')?;
        is_label(label).then_some(())?;
        Some(Line { label: Some(label), statement: statement(rest)? })
    }
}

/// The instruction or macro with this text.
fn statement(text: &str) -> Option<Statement<'_>> {
    let Some((mnemonic, rest)) = text.split_once(' ') else {
        return Statement::read(text, &[]);
    };
    let mut operands = [Operand::Number(0); MOST_OPERANDS];
    let mut count = 0;
    for operand in rest.split(", ") {
        *operands.get_mut(count)? = Operand::read(operand)?;
        count += 1;
    }
    Statement::read(mnemonic, &operands[..count])
}
