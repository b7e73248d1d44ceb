//! The names in a cell: what stands in backquotes, and the modules that it stands behind.

mod tests;

use std::fmt::{self, Display, Formatter};

/// A name and the module or file that it stands behind.
#[derive(Clone, Copy, Debug, PartialEq, Eq)]
pub struct Name<'a> {
    pub kind: Kind<'a>,
    pub scope: Scope<'a>,
}

/// What a name is, as its form tells.
#[derive(Clone, Copy, Debug, PartialEq, Eq)]
pub enum Kind<'a> {
    /// `Plan:`, outside of backquotes; its scope begins.
    Module,
    /// With a slash: a file, a folder or a must-fail edit.
    Path(&'a str),
    /// With `::`: what stands before it, and one of what stands behind.
    Item(&'a str, &'a str),
    /// With a dot: a field of a type. `.field` is one of the type named last.
    Field(&'a str, &'a str),
    /// Any other word: a crate, an export or a definition.
    Word(&'a str),
    /// In an expression, another word than its first: a definition of any module. Variables, of one
    /// letter, and signs are none.
    Argument(&'a str),
}

impl Display for Kind<'_> {
    fn fmt(&self, out: &mut Formatter<'_>) -> fmt::Result {
        match self {
            Kind::Module => Ok(()),
            Kind::Path(name) | Kind::Word(name) | Kind::Argument(name) => write!(out, "`{name}`"),
            Kind::Item(within, item) => write!(out, "`{within}::{item}`"),
            Kind::Field(of, field) => write!(out, "`{of}.{field}`"),
        }
    }
}

/// Where a name is looked for.
#[derive(Clone, Copy, Debug, Default, PartialEq, Eq)]
pub enum Scope<'a> {
    /// In all definitions.
    #[default]
    All,
    /// Behind `crate Module:` or `Module:`, up to a semicolon.
    Module(Option<&'a str>, &'a str),
    /// Behind the path of an antt file, up to a semicolon.
    File(&'a str),
}

/// The names of a cell in their order.
pub fn names(cell: &str) -> Vec<Name<'_>> {
    let mut reader = Reader::default();
    for (place, part) in cell.split('`').enumerate() {
        if place % 2 == 0 {
            part.split_whitespace().for_each(|word| reader.plain(word));
        } else {
            reader.quoted(part);
        }
    }
    reader.names
}

/// A cell as far as it is read.
#[derive(Default)]
struct Reader<'a> {
    names: Vec<Name<'a>>,
    scope: Scope<'a>,
    /// The type whose field was named last.
    of: &'a str,
    /// The word just before, if nothing but a space stands between.
    before: Option<&'a str>,
}

impl<'a> Reader<'a> {
    /// Reads a word outside of backquotes.
    fn plain(&mut self, word: &'a str) {
        let word = word.trim_start_matches('(');
        if let Some(module) = word.strip_suffix(':').filter(|name| is_module(name)) {
            self.scope = Scope::Module(self.before, module);
            self.push(Kind::Module);
        } else if word.contains(';') {
            self.scope = Scope::All;
        }
        self.before = Some(word).filter(|word| word.chars().all(is_of_crate));
    }

    /// Reads what stands in backquotes.
    fn quoted(&mut self, text: &'a str) {
        self.before = Some(text);
        if let Some((within, items)) = text.rsplit_once("::") {
            let items = items.trim_matches(['{', '}']).split(',');
            items.for_each(|item| self.push(Kind::Item(within, item.trim())));
        } else if text.contains('/') {
            self.push(Kind::Path(text));
            self.scope = if text.ends_with(".antt") { Scope::File(text) } else { self.scope };
        } else {
            let mut words = text.split_whitespace().map(|word| word.trim_matches(['(', ')']));
            words.next().into_iter().for_each(|word| self.word(word));
            let others =
                words.filter(|word| word.len() > 1 && word.starts_with(char::is_alphabetic));
            others.for_each(|word| self.push(Kind::Argument(word)));
        }
    }

    /// Reads the first word in backquotes.
    fn word(&mut self, word: &'a str) {
        let Some((of, field)) = word.split_once('.') else { return self.push(Kind::Word(word)) };
        self.of = if of.is_empty() { self.of } else { of };
        self.push(Kind::Field(self.of, field));
    }

    /// Adds a name in the scope of the moment.
    fn push(&mut self, kind: Kind<'a>) {
        self.names.push(Name { kind, scope: self.scope });
    }
}

/// Whether a word is a module's name.
fn is_module(word: &str) -> bool {
    word.starts_with(char::is_uppercase) && word.chars().all(char::is_alphanumeric)
}

/// Whether a letter may stand in a crate's name.
fn is_of_crate(letter: char) -> bool {
    letter.is_ascii_lowercase() || letter == '_'
}
