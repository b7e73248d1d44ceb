//! The definitions and laws of an antt file.

use crate::source::lines;
use std::collections::BTreeSet;

/// What may stand before the name of a definition.
const MODIFIERS: [&str; 5] = ["abbrev", "unfoldable", "pub", "record", "data"];

/// The names that a file gives.
#[derive(Debug, Default, PartialEq, Eq)]
pub struct Definitions {
    /// The names of definitions, laws and types.
    pub names: BTreeSet<String>,
    /// The types, each with a field or constructor.
    pub fields: BTreeSet<(String, String)>,
}

/// The names that a file gives.
pub fn definitions(text: &str) -> Definitions {
    let mut found = Definitions::default();
    let mut open: Option<(usize, &str)> = None;
    let lines = lines(text, "--").map(|(_, line)| line);
    for line in lines.filter(|line| !line.trim().is_empty()) {
        let indent = line.len() - line.trim_start().len();
        open = open.filter(|(of, _)| indent > *of);
        let Some((is_type, name)) = named(line) else { continue };
        if let Some((_, of)) = open {
            found.fields.insert((of.to_string(), name.to_string()));
        } else {
            found.names.insert(name.to_string());
            open = is_type.then_some((indent, name));
        }
    }
    found
}

/// The name that a line gives, and whether it is that of a record or data type: behind a modifier,
/// or before a colon.
fn named(line: &str) -> Option<(bool, &str)> {
    let words: Vec<&str> = line.split_whitespace().collect();
    let modifiers = words.iter().take_while(|word| MODIFIERS.contains(word)).count();
    let is_type = words[..modifiers].iter().any(|word| ["record", "data"].contains(word));
    let name = words.get(modifiers).filter(|name| !["use", "mod", "module"].contains(name))?;
    (modifiers > 0 || words.get(1) == Some(&":")).then_some((is_type, name))
}

/// Every kind of line that gives a name, and others.
const MIXED: &str = "\
-- pub none : A
use lib.List.{length}
pub use a.B.{c}
pub mod Inner
pub record Plan (s : State) : Type 0 where
  -- pub no : A
  pub state : State
  pub write :
      Write
abbrev pub plan : State → Plan
plan s w = record { state = s }
pub data Start : Type 0 where
  resume : Start
module _ (s : State) where
  unfoldable pub stepOf : ℕ → ℕ
  stepOf n = n
  law-of : stepOf 1 ≡ 1
  pub record Holds : Type 0 where
    pub sp-is : s .sp ≡ 255
  after : ℕ
";

#[test]
fn lines_give_names() {
    let found = definitions(MIXED);
    let names = ["Holds", "Plan", "Start", "after", "law-of", "plan", "stepOf"];
    assert_eq!(found.names.iter().map(String::as_str).collect::<Vec<_>>(), names);
}

#[test]
fn fields_have_types() {
    let fields = [("Holds", "sp-is"), ("Plan", "state"), ("Plan", "write"), ("Start", "resume")];
    let wanted = fields.map(|(of, field)| (of.to_string(), field.to_string()));
    assert_eq!(definitions(MIXED).fields, wanted.into());
}
