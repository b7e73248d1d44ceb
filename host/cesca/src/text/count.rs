//! Counts in words.

/// So many bytes: `1 byte`, `2 bytes`.
pub fn bytes(number: usize) -> String {
    counted(number, "byte")
}

/// So many of what one of them is called: `1 key`, `2 keys`.
pub fn counted(number: usize, one: &str) -> String {
    format!("{number} {one}{}", if number == 1 { "" } else { "s" })
}
