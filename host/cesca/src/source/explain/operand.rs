//! An operand by itself: numbers, registers, labels and brackets. 24.

use super::label;
use super::quote::shown;

/// What is wrong with an operand by itself; as a label, only where an address may stand.
pub fn flaw(operand: &str, may_be_address: impl FnOnce() -> bool) -> Option<String> {
    let wrong = |words: &str| Some(format!("{} {words}", shown(operand)));
    let word = inside(operand);
    match (operand.starts_with('['), operand.ends_with(']')) {
        (true, false) | (false, true) => return wrong("has one bracket without the other"),
        (true, true) if word.contains(' ') => return wrong("has a space between its brackets"),
        _ => (),
    }
    match word.as_bytes() {
        [] => wrong("has nothing between its brackets"),
        [b'-', b'0'..=b'9', ..] => wrong("is below 0"),
        [b'+', b'0'..=b'9', ..] => wrong("has a sign"),
        [b'0'..=b'9', ..] => number(word),
        [b'R' | b'r', digits @ ..] if is_decimal(digits) => register(word),
        letters if letters.iter().all(u8::is_ascii_alphanumeric) => {
            label::flaw(word).filter(|_| may_be_address())
        }
        _ => wrong("is no operand"),
    }
}

/// How many operands stand in the place of one, with spaces alone between them; a space between
/// brackets parts nothing.
pub fn parted(operand: &str) -> usize {
    let whole = |part: &str| part.starts_with('[') == part.ends_with(']');
    if operand.split(' ').all(whole) {
        operand.split(' ').count()
    } else {
        1
    }
}

/// What stands between the brackets of an operand, or all of it if it has none.
pub fn inside(operand: &str) -> &str {
    operand.strip_prefix('[').and_then(|rest| rest.strip_suffix(']')).unwrap_or(operand)
}

/// Whether a word is a register.
pub fn is_register(word: &str) -> bool {
    matches!(word.as_bytes(), [b'R', b'0'..=b'3'])
}

/// Whether a word is a number as a text may have it.
pub fn is_number(word: &str) -> bool {
    word.starts_with(|first: char| first.is_ascii_digit()) && number(word).is_none()
}

/// What is wrong with a word that begins with a digit, as a number.
fn number(word: &str) -> Option<String> {
    let flaw = match word.as_bytes() {
        [b'0', b'x', high, low] if [high, low].iter().all(|it| it.is_ascii_hexdigit()) => None,
        [b'0', b'x', ..] => Some("is not 0x and two hexadecimal digits"),
        digits if !is_decimal(digits) => Some("is no number, decimal or with 0x"),
        [b'0', _, ..] => Some("has a leading zero"),
        _ => word.parse::<u8>().is_err().then_some("is over 255"),
    };
    flaw.map(|flaw| format!("{} {flaw}", shown(word)))
}

/// What is wrong with a word that is R and digits, as a register.
fn register(word: &str) -> Option<String> {
    let none = !is_register(word);
    none.then(|| format!("{} is no register: there are R0, R1, R2 and R3", shown(word)))
}

/// Whether these are decimal digits, at least one.
fn is_decimal(digits: &[u8]) -> bool {
    !digits.is_empty() && digits.iter().all(u8::is_ascii_digit)
}
