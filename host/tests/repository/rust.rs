//! What a file of Rust code has: the tests that are run, and the modules in files of their own.

mod tests;
mod tokens;

use tokens::tokens;
use tokens::Token::{self, Sign, Text, Word};

/// What a file has, without what is in a comment, ignored or switched off.
#[derive(Debug, Default, PartialEq, Eq)]
pub struct Code<'a> {
    /// The test functions.
    pub tests: Vec<&'a str>,
    /// The modules in files of their own, each with the path that an attribute gives.
    pub modules: Vec<(&'a str, Option<&'a str>)>,
}

/// What a text has.
pub fn code(text: &str) -> Code<'_> {
    let tokens = tokens(text);
    let mut rest = &tokens[..];
    let (mut code, mut attributes) = (Code::default(), Attributes::default());
    while !rest.is_empty() {
        let mut length = 1;
        match rest {
            [Sign('#'), Sign('['), ..] => {
                length = group(rest);
                attributes.0.push(&rest[2..length - 1]);
            }
            [Sign('#'), Sign('!'), Sign('['), ..] => {
                length = group(rest);
                let of_file = Attributes(vec![&rest[3..length - 1]]);
                length = if of_file.are_on() { length } else { rest.len() };
            }
            [Word("pub"), Sign('('), ..] | [Word("macro_rules"), ..] => length = group(rest),
            [Word("pub" | "const" | "unsafe" | "async"), ..] => {}
            [Word("mod"), Word(_), Sign('{'), ..] => {
                length = if attributes.are_on() { 3 } else { group(rest) };
                attributes = Attributes::default();
            }
            [Word(keyword), Word(name), ..] => {
                code.add(keyword, name, &attributes);
                attributes = Attributes::default();
            }
            _ => attributes = Attributes::default(),
        }
        rest = &rest[length..];
    }
    code
}

impl<'a> Code<'a> {
    /// Adds what a keyword and a name declare behind these attributes.
    fn add(&mut self, keyword: &str, name: &'a str, attributes: &Attributes<'a, '_>) {
        match keyword {
            "mod" if attributes.are_on() => self.modules.push((name, attributes.path())),
            "fn" if attributes.are_on() && attributes.are_of_test() => self.tests.push(name),
            _ => {}
        }
    }
}

/// The attributes before an item, without their brackets.
#[derive(Default)]
struct Attributes<'a, 'b>(Vec<&'b [Token<'a>]>);

impl<'a> Attributes<'a, '_> {
    /// Whether none of them switches the item off; a condition other than `test` is taken to.
    fn are_on(&self) -> bool {
        let condition =
            |attribute: &&[Token<'_>]| matches!(attribute.first(), Some(Word("cfg" | "cfg_attr")));
        let test = [Word("cfg"), Sign('('), Word("test"), Sign(')')];
        self.0.iter().copied().filter(condition).all(|attribute| *attribute == test)
    }

    /// Whether they make a function a test that isn't ignored.
    fn are_of_test(&self) -> bool {
        let mut all = self.0.iter().copied();
        all.clone().any(|attribute| *attribute == [Word("test")])
            && !all.any(|attribute| attribute.first() == Some(&Word("ignore")))
    }

    /// The path that one of them gives.
    fn path(&self) -> Option<&'a str> {
        self.0.iter().find_map(|attribute| match attribute {
            [Word("path"), Sign('='), Text(path)] => Some(*path),
            _ => None,
        })
    }
}

/// The number of tokens up to where the first bracket that opens is closed.
fn group(tokens: &[Token<'_>]) -> usize {
    let mut open = 0;
    let closing = tokens.iter().position(|token| {
        let change = match token {
            Sign('(' | '[' | '{') => 1,
            Sign(')' | ']' | '}') => -1,
            _ => return false,
        };
        open += change;
        change < 0 && open == 0
    });
    1 + closing.expect("a closing bracket")
}
