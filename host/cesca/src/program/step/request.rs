//! What a line of standard input asks for.

use std::io::{self, BufRead, ErrorKind, Read};

/// The most bytes of a line, without its newline.
const MOST_LINE: usize = 4_096;

/// What a line asks for.
#[derive(Debug, PartialEq, Eq)]
pub enum StepRequest {
    /// So many steps.
    Steps(u64),
    /// The end.
    Quit,
    /// Something that there isn't.
    Unknown(String),
}

impl StepRequest {
    /// What the next line asks for, or what the end of the input stands for; a line that is too
    /// long is an error, and isn't read to its end.
    pub fn read(input: &mut impl BufRead) -> io::Result<Self> {
        let mut line = Vec::new();
        let most = MOST_LINE as u64 + 1;
        if input.by_ref().take(most).read_until(b'\n', &mut line)? == 0 {
            return Ok(Self::Quit);
        }
        let line = line.strip_suffix(b"\n").unwrap_or(&line);
        if line.len() > MOST_LINE {
            let reason = "a line of over 4,096 bytes is no number of steps";
            return Err(io::Error::new(ErrorKind::InvalidData, reason));
        }
        Ok(Self::of_line(&String::from_utf8_lossy(line)))
    }

    /// What a line asks for.
    fn of_line(line: &str) -> Self {
        match line.trim() {
            "" => Self::Steps(1),
            "q" => Self::Quit,
            // A number too high for any run is as good as the highest there is.
            digits if digits.bytes().all(|digit| digit.is_ascii_digit()) => {
                Self::Steps(digits.parse().unwrap_or(u64::MAX))
            }
            other => Self::Unknown(other.to_string()),
        }
    }
}

#[cfg(test)]
mod tests {
    use super::StepRequest::{self, Quit, Steps, Unknown};
    use std::io::{self, BufReader};

    #[test]
    fn lines() {
        for (line, request) in [
            ("\n", Steps(1)),
            (" \r\n", Steps(1)),
            ("12\n", Steps(12)),
            ("0", Steps(0)),
            ("99999999999999999999\n", Steps(u64::MAX)),
            (" q \n", Quit),
            ("", Quit),
            ("+5\n", Unknown("+5".to_string())),
            ("quit\n", Unknown("quit".to_string())),
        ] {
            let found = StepRequest::read(&mut line.as_bytes()).expect("bytes");
            assert_eq!(found, request, "{line:?}");
        }
        let other = StepRequest::read(&mut &b"\xFF\n"[..]).expect("bytes");
        assert_eq!(other, Unknown("\u{FFFD}".to_string()));
    }

    #[test]
    fn long_lines() {
        let five = format!("{}5", " ".repeat(4_095));
        for line in [five.clone(), format!("{five}\n")] {
            let mut input = line.as_bytes();
            assert_eq!(StepRequest::read(&mut input).expect("bytes"), Steps(5));
            assert_eq!(StepRequest::read(&mut input).expect("bytes"), Quit);
        }
        for line in [format!(" {five}"), format!(" {five}\n"), format!("{five}\r\n")] {
            let error = StepRequest::read(&mut line.as_bytes()).expect_err("a long line");
            assert_eq!(error.to_string(), "a line of over 4,096 bytes is no number of steps");
        }
    }

    #[test]
    fn a_line_without_an_end_is_not_read_to_its_end() {
        let mut input = BufReader::new(io::repeat(b'1'));
        assert!(StepRequest::read(&mut input).is_err());
    }
}
