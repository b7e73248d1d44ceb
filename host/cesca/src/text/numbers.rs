//! Numbers as a listing's text has them: digits alone.

/// The number with these decimal digits, or what is wrong with it.
pub fn decimal(what: &str, digits: &str) -> Result<u8, String> {
    if digits.is_empty() || !digits.bytes().all(|digit| digit.is_ascii_digit()) {
        return Err(format!("{what} {digits:?} is no number"));
    }
    digits.parse().map_err(|_| format!("{what} {digits} is over 255"))
}

/// The byte with these two hexadecimal digits, or what is wrong with it.
pub fn byte(digits: &str) -> Result<u8, String> {
    let wrong = || format!("byte {digits:?} is not two hexadecimal digits");
    hexadecimal(digits, 2).and_then(|number| number.try_into().ok()).ok_or_else(wrong)
}

/// The sheet word with these four hexadecimal digits, or what is wrong with it.
pub fn sheet_word(digits: &str) -> Result<u16, String> {
    let wrong = || format!("sheet word {digits:?} is not four hexadecimal digits");
    hexadecimal(digits, 4).ok_or_else(wrong)
}

/// The number with so many hexadecimal digits.
fn hexadecimal(digits: &str, length: usize) -> Option<u16> {
    // Read by itself, a sign would pass for a digit.
    let plain = digits.len() == length && digits.bytes().all(|digit| digit.is_ascii_hexdigit());
    u16::from_str_radix(digits, 16).ok().filter(|_| plain)
}
