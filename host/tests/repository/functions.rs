//! Functions of a Rattle file and what their contracts ask.

mod tests;

use crate::items::name;

/// A function that others may call.
#[derive(Debug, PartialEq, Eq)]
pub struct Function {
    /// Its name.
    pub name: String,
    /// It is exported to C.
    pub exported: bool,
    /// The line of its name, the first being 1.
    pub line: usize,
    /// The line of a `requires` in its contract.
    pub requires: Option<usize>,
}

/// The public and the exported functions of a file.
pub fn functions(text: &str) -> Vec<Function> {
    let code = without_comments(text);
    let starts = code.match_indices("fn ").map(|(at, _)| at);
    starts.filter_map(|at| function(&code, at)).collect()
}

/// The function whose `fn` stands here, if others may call it.
fn function(code: &str, at: usize) -> Option<Function> {
    let before = last_line(&code[..at]);
    let exported = before.contains("extern");
    if !exported && !before.trim_start().starts_with("pub ") {
        return None;
    }
    let name = name(&code[at + "fn ".len()..]).to_string();
    let requires = requires(code, at).map(|at| line(code, at));
    Some(Function { name, exported, line: line(code, at), requires })
}

/// The place of a `requires` between the signature that begins here and its body.
fn requires(code: &str, at: usize) -> Option<usize> {
    let mut at = closed(code, at, '(', ')')?;
    loop {
        let open = at + code[at..].find('{')?;
        let clause = clause(&code[at..open])?;
        if clause == "requires" {
            return Some(at + code[at..open].rfind(clause)?);
        }
        at = closed(code, open, '{', '}')?;
    }
}

/// The word that makes a brace after this text a clause's and not the body's: `requires` or
/// `ensures`, with or without the clause's name behind it, or any word alone on its line.
fn clause(before: &str) -> Option<&str> {
    let alone = last_line(before).trim();
    let words: Vec<&str> = alone.split_whitespace().collect();
    let kind = words.iter().rev().take(2).find(|word| ["requires", "ensures"].contains(word));
    kind.copied().or_else(|| words.last().copied().filter(|last| *last == alone))
}

/// The place after the bracket that closes the first one from here on.
fn closed(code: &str, from: usize, open: char, close: char) -> Option<usize> {
    let mut depth = 0;
    for (at, letter) in code[from..].char_indices() {
        if letter == open {
            depth += 1;
        } else if letter == close {
            depth -= 1;
            if depth == 0 {
                return Some(from + at + close.len_utf8());
            }
        }
    }
    None
}

/// A text without its comments, line by line.
fn without_comments(text: &str) -> String {
    let lines = text.lines().map(|line| line.split("//").next().unwrap_or_default());
    lines.collect::<Vec<_>>().join("\n")
}

/// What follows the last end of a line.
fn last_line(text: &str) -> &str {
    text.rsplit('\n').next().unwrap_or_default()
}

/// The line of a place, the first being 1.
fn line(text: &str, at: usize) -> usize {
    1 + text[..at].matches('\n').count()
}
