//! Operands and what they can be read as.

use super::statement::Argument;

/// The most letters of a label.
const LONGEST_LABEL: usize = 12;

/// An operand by the way it is spelled.
#[derive(Clone, Copy, Debug, PartialEq, Eq)]
pub enum Operand<'a> {
    /// `R0` to `R3`.
    Register(u8),
    /// A number, decimal or hexadecimal.
    Number(u8),
    /// Letters: a label, or a name such as `IN`.
    Letters(&'a str),
    /// A register in brackets.
    AtRegister(u8),
    /// A number or a label in brackets.
    AtAddress(Argument<'a>),
}

impl<'a> Operand<'a> {
    /// The operand with this spelling.
    pub fn read(text: &'a str) -> Option<Operand<'a>> {
        if let Some(inside) = text.strip_prefix('[') {
            let inside = Operand::plain(inside.strip_suffix(']')?)?;
            return match inside {
                Operand::Register(number) => Some(Operand::AtRegister(number)),
                _ => inside.address().map(Operand::AtAddress),
            };
        }
        Operand::plain(text)
    }

    /// The operand without brackets that has this spelling.
    fn plain(text: &'a str) -> Option<Operand<'a>> {
        match text {
            "R0" => Some(Operand::Register(0)),
            "R1" => Some(Operand::Register(1)),
            "R2" => Some(Operand::Register(2)),
            "R3" => Some(Operand::Register(3)),
            _ if is_label(text) => Some(Operand::Letters(text)),
            _ => number(text).map(Operand::Number),
        }
    }

    /// The argument of an instruction that takes this operand for its address.
    pub fn address(self) -> Option<Argument<'a>> {
        match self {
            Operand::Number(number) => Some(Argument::Byte(number)),
            Operand::Letters(label) => Some(Argument::Label(label)),
            _ => None,
        }
    }
}

/// Whether a label may be spelled like this.
pub fn is_label(text: &str) -> bool {
    (1..=LONGEST_LABEL).contains(&text.len()) && text.bytes().all(|byte| byte.is_ascii_alphabetic())
}

/// The number with these digits: decimal without leading zeros, or `0x` and two more.
fn number(text: &str) -> Option<u8> {
    if let Some(digits) = text.strip_prefix("0x") {
        let both = digits.len() == 2 && digits.bytes().all(|byte| byte.is_ascii_hexdigit());
        return both.then(|| u8::from_str_radix(digits, 16).ok())?;
    }
    // `parse` would read a sign too.
    let plain = text == "0" || text.starts_with(|first| ('1'..='9').contains(&first));
    plain.then(|| text.parse().ok())?
}

#[cfg(test)]
mod tests {
    use super::*;

    #[test]
    fn numbers() {
        for value in 0..=255 {
            assert_eq!(number(&value.to_string()), Some(value));
            assert_eq!(number(&format!("0x{value:02x}")), Some(value));
            assert_eq!(number(&format!("0x{value:02X}")), Some(value));
        }
        assert_eq!(number("0xaB"), Some(171));
        let wrong = ["", "256", "00", "01", "007", "0x", "0x5", "0x100", "0X10", "0x+1", "-1"];
        for text in wrong.into_iter().chain(["+1", "1 ", " 1", "1_0", "x10", "0xG0", "٣"]) {
            assert_eq!(number(text), None, "{text}");
        }
        assert_eq!(number("18446744073709551617"), None);
    }

    #[test]
    fn spellings() {
        let read = Operand::read;
        assert_eq!(read("R3"), Some(Operand::Register(3)));
        assert_eq!(read("[R3]"), Some(Operand::AtRegister(3)));
        assert_eq!(read("[3]"), Some(Operand::AtAddress(Argument::Byte(3))));
        assert_eq!(read("[R]"), Some(Operand::AtAddress(Argument::Label("R"))));
        assert_eq!(read("NONE"), Some(Operand::Letters("NONE")));
        assert_eq!(read("abcdefghijkl"), Some(Operand::Letters("abcdefghijkl")));
        let wrong = ["", "R4", "R00", "r0", "a1", "abcdefghijklm", "[]", "[[3]]", "[3", "3]"];
        for text in wrong.into_iter().chain([" R0", "R0 ", "[ 3]", "é", "skip(1)", "a:"]) {
            assert_eq!(read(text), None, "{text}");
        }
    }
}
