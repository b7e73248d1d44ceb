//! Parts of a text, shown so that they fit in a line and do nothing to a terminal.

/// The most bytes of a part that are shown.
const MOST: usize = 60;

/// The part between quotation marks, bytes that aren't printable escaped; `..` stands for what is
/// left out of a long one.
pub fn quoted(part: &[u8]) -> String {
    let shown = &part[..part.len().min(MOST)];
    // An apostrophe would have a backslash that isn't in the text.
    let escaped = shown.escape_ascii().to_string().replace("\\'", "'");
    let rest = if part.len() > MOST { ".." } else { "" };
    format!("\"{escaped}\"{rest}")
}

/// A word of a line: between quotation marks, unless a digit tells it from the words around it.
pub fn shown(word: &str) -> String {
    let digit = word.bytes().any(|byte| byte.is_ascii_digit());
    let plain = word.bytes().all(|byte| byte.is_ascii_graphic() && !b"\"'\\".contains(&byte));
    if digit && plain && word.len() <= MOST {
        return word.to_string();
    }
    quoted(word.as_bytes())
}

#[cfg(test)]
mod tests {
    use super::*;

    #[test]
    fn parts_between_quotation_marks() {
        assert_eq!(quoted(b"mov R0, 256"), "\"mov R0, 256\"");
        assert_eq!(quoted(b""), "\"\"");
        assert_eq!(quoted(b"a\tb\r\0\x1B\x7F"), r#""a\tb\r\x00\x1b\x7f""#);
        assert_eq!(quoted("é".as_bytes()), r#""\xc3\xa9""#);
        assert_eq!(quoted(br#"'a' "b" \c\'"#), r#""'a' \"b\" \\c\\'""#);
    }

    #[test]
    fn long_parts_are_cut() {
        let long = "1".repeat(60);
        assert_eq!(quoted(long.as_bytes()), format!("\"{long}\""));
        assert_eq!(quoted(long.repeat(20_000).as_bytes()), format!("\"{long}\".."));
        assert_eq!(shown(&long), long);
        assert_eq!(shown(&long.repeat(2)), format!("\"{long}\".."));
    }

    #[test]
    fn words_with_and_without_quotation_marks() {
        for word in ["256", "0x5", "-1", "R4", "[R4]", "loop1"] {
            assert_eq!(shown(word), word);
        }
        assert_eq!(shown("in"), "\"in\"");
        assert_eq!(shown("R0 5"), "\"R0 5\"");
        assert_eq!(shown("'5'"), "\"'5'\"");
        assert_eq!(shown("5\x1B"), "\"5\\x1b\"");
        assert_eq!(shown(""), "\"\"");
    }
}
