//! What the repository has that a promise may name.

mod gathering;
pub mod tests;

use crate::definitions::Definitions;
use crate::running::Running;
use std::collections::BTreeSet;

/// What there is.
#[derive(Default)]
pub struct Known {
    /// The files and folders, from the root.
    paths: BTreeSet<String>,
    /// What the crates declare, with crate and modules before it.
    items: BTreeSet<String>,
    /// The functions exported to C.
    exports: BTreeSet<String>,
    /// The files of definitions and proofs.
    modules: Vec<Module>,
    /// The host's tests.
    running: Running,
    /// The files of stored lines, each with what stands before a line's colon.
    cases: BTreeSet<(String, String)>,
    /// The examples' answers, as `5 at 7` and as `5`.
    answers: BTreeSet<String>,
}

/// A file of definitions or proofs.
pub struct Module {
    /// Its path from the root.
    pub file: String,
    /// Its crate.
    pub of: String,
    /// Its name, without the ending.
    pub name: String,
    /// It has definitions, and no proofs.
    pub is_specs: bool,
    /// The names that it gives.
    pub definitions: Definitions,
}

impl Known {
    /// The must-fail edits, as `crate/edit`.
    pub fn edits(&self) -> impl Iterator<Item = String> + '_ {
        self.paths.iter().filter_map(|path| {
            let (of, edit) = path.strip_prefix("crates/")?.split_once("/must-fail/")?;
            Some(format!("{of}/{}", edit.strip_suffix(".edit")?))
        })
    }

    /// Whether there is a file or folder at a path from the root or from the crates.
    pub fn has_path(&self, path: &str) -> bool {
        let path = path.trim_end_matches('/');
        self.paths.contains(path) || self.paths.contains(&format!("crates/{path}"))
    }

    /// Whether there is such a must-fail edit, named as `crate/edit`.
    pub fn has_edit(&self, name: &str) -> bool {
        self.edits().any(|edit| edit == name)
    }

    /// Whether there is such a crate.
    pub fn has_crate(&self, name: &str) -> bool {
        self.paths.contains(&format!("crates/{name}"))
    }

    /// Whether such a function is exported to C.
    pub fn has_export(&self, name: &str) -> bool {
        self.exports.contains(name)
    }

    /// Whether a crate declares this, named with crate and modules.
    pub fn has_item(&self, item: &str) -> bool {
        self.items.contains(item)
    }

    /// The crates that declare a type of this name, or an enum with a case of it.
    pub fn with_type<'a>(&'a self, name: &'a str) -> impl Iterator<Item = &'a str> {
        let items = self.items.iter().filter(|_| name.starts_with(char::is_uppercase));
        let named = items.filter(move |item| item.rsplit("::").next() == Some(name));
        named.filter_map(|item| item.split("::").next())
    }

    /// The files of definitions and proofs.
    pub fn modules(&self) -> impl Iterator<Item = &Module> {
        self.modules.iter()
    }

    /// The host's tests.
    pub fn running(&self) -> &Running {
        &self.running
    }

    /// Whether a case has a line in a file of stored lines.
    pub fn has_case(&self, file: &str, case: &str) -> bool {
        self.cases.contains(&(file.to_string(), case.to_string()))
    }

    /// Whether an example is answered so.
    pub fn has_answer(&self, answer: &str) -> bool {
        self.answers.contains(answer)
    }
}
