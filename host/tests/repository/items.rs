//! What a Rattle file declares: functions, types with their cases, and constants.

use crate::source::lines;

/// The words before a declared name.
const KEYWORDS: [&str; 4] = ["fn", "struct", "enum", "const"];

/// The names declared in a file, an enum's case as `Enum::Case`.
pub fn items(text: &str) -> Vec<String> {
    let mut found = Vec::new();
    let mut open: Option<&str> = None;
    for (_, line) in lines(text, "//") {
        if let Some((keyword, name)) = declared(line) {
            found.push(name.to_string());
            open = (keyword == "enum").then_some(name);
        } else if let Some(of) = open {
            let case = name(line.trim_start());
            found.extend((!case.is_empty()).then(|| format!("{of}::{case}")));
            open = (!line.starts_with('}')).then_some(of);
        }
    }
    found
}

/// The keyword and the name that a line declares.
fn declared(line: &str) -> Option<(&str, &str)> {
    let mut words = line.split_whitespace();
    let keyword = words.find(|word| KEYWORDS.contains(word))?;
    Some((keyword, name(words.next()?)))
}

/// The name that a text begins with.
pub fn name(text: &str) -> &str {
    let end = text.find(|letter: char| !letter.is_alphanumeric() && letter != '_');
    &text[..end.unwrap_or(text.len())]
}

#[test]
fn declarations_give_names() {
    let text = "\
// fn none()
mod inner;
use a::b;
pub struct Row(pub Opcode, pub u8);
pub struct State {
    pub pc: u8,
}
// An enum.
pub enum Instr {
    // mov Rd, Imm8: d, imm
    MovImm(u8, u8),
    Ack,
}
const LAST: u8 = 39;
pub extern \"C\" fn c_f(x: u8) -> u8
    ensures { λ r. ⌜ r ≡ x ⌝ }
{
    x
}
fn own<A>() {}
";
    let wanted = ["Row", "State", "Instr", "Instr::MovImm", "Instr::Ack", "LAST", "c_f", "own"];
    assert_eq!(items(text), wanted);
}
