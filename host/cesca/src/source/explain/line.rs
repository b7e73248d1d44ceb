//! A line that is no instruction or macro: its bytes, its spaces and its label. 24.

use super::{instruction, label};

/// What begins a comment elsewhere.
const COMMENTS: [&str; 3] = [";", "#", "//"];

/// What is wrong with a line, if it is no instruction or macro.
pub fn flaw(line: &[u8]) -> Option<String> {
    if line.is_empty() {
        return Some("the line is empty".to_string());
    }
    let plain = str::from_utf8(line).ok().filter(|line| line.bytes().all(is_plain));
    let Some(line) = plain else { return unprintable(line) };
    comment(line).or_else(|| spaces(line)).or_else(|| match line.split_once(':') {
        None => instruction::flaw(line),
        Some((name, rest)) => label::flaw(name).or_else(|| behind_label(rest)),
    })
}

/// Whether a byte is a space or a printable character of ASCII.
fn is_plain(byte: u8) -> bool {
    byte == b' ' || byte.is_ascii_graphic()
}

/// The first byte that is not printable.
fn unprintable(line: &[u8]) -> Option<String> {
    let at = line.iter().position(|byte| !is_plain(*byte))?;
    let what = match line[at] {
        b'\t' => "a tab".to_string(),
        b'\r' => "a carriage return".to_string(),
        byte @ ..=0x7F => format!("the byte 0x{byte:02X}"),
        _ => "a byte outside ASCII".to_string(),
    };
    Some(format!("it has {what} in column {}", at + 1))
}

/// A comment, or the sign that a number has elsewhere.
fn comment(line: &str) -> Option<String> {
    let marks = COMMENTS.into_iter().filter_map(|mark| Some((line.find(mark)?, mark)));
    let (at, mark) = marks.min()?;
    let digit = line[at + mark.len()..].starts_with(|next: char| next.is_ascii_digit());
    if mark == "#" && at > 0 && digit {
        return Some("a number has no \"#\" before it here".to_string());
    }
    Some(format!("{mark:?} begins no comment here: a text has none"))
}

/// Spaces where there should be none.
fn spaces(line: &str) -> Option<String> {
    if line.starts_with(' ') {
        Some("it begins with a space".to_string())
    } else if line.ends_with(' ') {
        Some("it ends in a space".to_string())
    } else {
        let at = line.find("  ")?;
        Some(format!("it has two spaces in column {}", at + 1))
    }
}

/// What is wrong behind the colon of a label.
fn behind_label(rest: &str) -> Option<String> {
    if rest.is_empty() {
        return Some("no instruction follows the label".to_string());
    }
    let Some(rest) = rest.strip_prefix(' ') else {
        return Some("no space follows the colon".to_string());
    };
    if rest.contains(':') {
        return Some("it has two colons, and a line has one label at most".to_string());
    }
    instruction::flaw(rest)
}
