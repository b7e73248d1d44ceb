//! The pieces of Rust code.

/// A piece of code.
#[derive(Clone, Copy, Debug, PartialEq, Eq)]
pub enum Token<'a> {
    /// A name, a keyword or a number.
    Word(&'a str),
    /// What stands between quotes.
    Text(&'a str),
    /// Any other sign.
    Sign(char),
}

/// The pieces of a text, without comments.
pub fn tokens(text: &str) -> Vec<Token<'_>> {
    let mut tokens = Vec::new();
    let mut rest = text.trim_start();
    while let Some(sign) = rest.chars().next() {
        let end = rest.find(|letter: char| !letter.is_alphanumeric() && letter != '_');
        let word = &rest[..end.unwrap_or(rest.len())];
        let length = comment(rest).unwrap_or_else(|| {
            let (token, length) = quoted(rest).unwrap_or(match word {
                "" => (Token::Sign(sign), sign.len_utf8()),
                word => (Token::Word(word), word.len()),
            });
            tokens.push(token);
            length
        });
        rest = rest[length..].trim_start();
    }
    tokens
}

/// The length of the comment that a text begins with.
fn comment(text: &str) -> Option<usize> {
    if text.starts_with("//") {
        return Some(text.find('\n').unwrap_or(text.len()));
    }
    let mut rest = text.strip_prefix("/*")?;
    let mut open = 1;
    while open > 0 {
        let Some(at) = [rest.find("/*"), rest.find("*/")].into_iter().flatten().min() else {
            return Some(text.len());
        };
        open = if rest[at..].starts_with("/*") { open + 1 } else { open - 1 };
        rest = &rest[at + 2..];
    }
    Some(text.len() - rest.len())
}

/// The quoted piece that a text begins with, and its length with quotes.
fn quoted(text: &str) -> Option<(Token<'_>, usize)> {
    let raw = ["r", "br", "cr"].into_iter().find_map(|prefix| {
        let hashes = text.strip_prefix(prefix)?;
        let inner = hashes.trim_start_matches('#').strip_prefix('"')?;
        let end = format!("\"{}", "#".repeat(hashes.len() - inner.len() - 1));
        Some((inner, inner.find(&end), end.len()))
    });
    let (inner, end, closing) = match text.chars().next()? {
        _ if raw.is_some() => raw?,
        '"' => (&text[1..], close(&text[1..], '"'), 1),
        // Anything else behind such a quote is a lifetime.
        '\'' if text[1..].starts_with('\\') || text.chars().nth(2) == Some('\'') => {
            (&text[1..], close(&text[1..], '\''), 1)
        }
        _ => return None,
    };
    let begin = text.len() - inner.len();
    let end = end.unwrap_or(inner.len());
    Some((Token::Text(&inner[..end]), (begin + end + closing).min(text.len())))
}

/// Where a quote closes; one behind a backslash doesn't.
fn close(text: &str, quote: char) -> Option<usize> {
    let mut letters = text.char_indices();
    while let Some((at, letter)) = letters.next() {
        match letter {
            '\\' => drop(letters.next()),
            _ if letter == quote => return Some(at),
            _ => {}
        }
    }
    None
}

#[test]
fn comments_are_no_pieces() {
    use Token::{Sign, Word};
    let text = "a // b\n/* c /* d */ \" */ _e1/// f\n;// g";
    assert_eq!(tokens(text), [Word("a"), Word("_e1"), Sign(';')]);
    assert_eq!(tokens("a /* b /* */"), [Word("a")]);
    assert_eq!(tokens(" // a"), []);
}

#[test]
fn quotes_hold_texts() {
    use Token::{Sign, Text, Word};
    assert_eq!(tokens(r#""a // \" b" c"#), [Text(r#"a // \" b"#), Word("c")]);
    assert_eq!(tokens(r###"r#"a" b\"# c"###), [Text(r#"a" b\"#), Word("c")]);
    assert_eq!(tokens("'\"' '\\'' 'λ' x"), [Text("\""), Text("\\'"), Text("λ"), Word("x")]);
    assert_eq!(tokens("&'a b'"), [Sign('&'), Sign('\''), Word("a"), Word("b"), Sign('\'')]);
    assert_eq!(tokens("\"a"), [Text("a")]);
    assert_eq!(tokens("r#type"), [Word("r"), Sign('#'), Word("type")]);
}
