//! What may stand in an operand's place.

use super::label;
use super::operand::{inside, is_number, is_register};
use std::fmt::{self, Display, Formatter};

/// A kind of operand, or the name that an operand has.
#[derive(Clone, Copy, PartialEq, Eq)]
pub enum Due {
    /// A register.
    Register,
    /// A number.
    Number,
    /// A number or a label.
    Address,
    /// An address in brackets.
    AtAddress,
    /// A register in brackets.
    AtRegister,
    /// What has a name of its own.
    Name(&'static str),
}

impl Due {
    /// An operand that fits.
    pub fn sample(self) -> &'static str {
        match self {
            Due::Register => "R0",
            Due::Number => "0",
            Due::Address => "a",
            Due::AtAddress => "[a]",
            Due::AtRegister => "[R0]",
            Due::Name(name) => name,
        }
    }

    /// Whether an operand fits.
    pub fn fits(self, operand: &str) -> bool {
        let (word, brackets) = (inside(operand), operand.starts_with('['));
        let is_address = || is_number(word) || label::flaw(word).is_none();
        match self {
            Due::Register => is_register(operand),
            Due::Number => is_number(operand),
            Due::Address => !brackets && is_address(),
            Due::AtAddress => brackets && is_address(),
            Due::AtRegister => brackets && is_register(word),
            Due::Name(name) => operand == name,
        }
    }

    /// The name, if an operand is that in letters of another case.
    pub fn other_case(self, operand: &str) -> Option<&'static str> {
        match self {
            Due::Name(name) if name.eq_ignore_ascii_case(operand) => Some(name),
            _ => None,
        }
    }
}

impl Display for Due {
    fn fmt(&self, out: &mut Formatter<'_>) -> fmt::Result {
        out.write_str(match self {
            Due::Register => "a register",
            Due::Number => "a number",
            Due::Address => "an address",
            Due::AtAddress => "an address in brackets",
            Due::AtRegister => "a register in brackets",
            Due::Name(name) => name,
        })
    }
}
