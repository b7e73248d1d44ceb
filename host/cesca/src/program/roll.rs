//! The LCD's roll as text.

/// What was sent to the LCD: data as characters, commands as `[01]`, and data bytes that have no
/// character, or that of a bracket or a backslash, as `\x5B`.
pub fn text(roll: &[u16]) -> String {
    roll.iter().map(|word| transfer(*word)).collect()
}

/// One transfer; no two words of a roll have the same text.
fn transfer(word: u16) -> String {
    let [command, byte] = word.to_be_bytes();
    match byte {
        _ if command > 0 => format!("[{byte:02X}]"),
        b'[' | b'\\' => format!("\\x{byte:02X}"),
        b' '..=b'~' => char::from(byte).to_string(),
        _ => format!("\\x{byte:02X}"),
    }
}

#[cfg(test)]
mod tests {
    use super::*;
    use std::collections::HashSet;

    #[test]
    fn data_and_commands() {
        assert_eq!(text(&[]), "");
        assert_eq!(text(&[0x138, 0x10E, 0x106, 72, 105, 33, 0x101]), "[38][0E][06]Hi![01]");
        assert_eq!(text(&[0, 31, 32, 126, 127, 255]), "\\x00\\x1F ~\\x7F\\xFF");
        assert_eq!(text(&[0x141, 65, 0x1FF]), "[41]A[FF]");
    }

    #[test]
    fn brackets_and_backslashes_are_data() {
        let data: Vec<u16> = "[01] \\x01".bytes().map(u16::from).collect();
        assert_eq!(text(&data), "\\x5B01] \\x5Cx01");
    }

    #[test]
    fn no_text_begins_another() {
        let texts: HashSet<String> = (0..512).map(transfer).collect();
        assert_eq!(texts.len(), 512);
        for text in &texts {
            let begun = texts.iter().filter(|other| other.starts_with(text.as_str()));
            assert_eq!(begun.count(), 1, "{text}");
        }
    }
}
