//! Which files of the host's tests are run: those that `mod` lines lead to from a target's root.

mod tests;

use crate::rust::{code, Code};
use crate::source::Source;
use std::collections::{BTreeMap, BTreeSet};

/// The folder of the targets.
const TESTS: &str = "host/tests/";

/// The files that are run.
#[derive(Debug, Default)]
pub struct Running {
    /// Those with a test, in them or in a module below.
    tests: BTreeSet<String>,
    /// Those of a target with a test.
    parts: BTreeSet<String>,
}

impl Running {
    /// What is run of these files.
    pub fn of(sources: &[Source]) -> Running {
        let own = sources.iter().filter(|source| source.file.starts_with(TESTS));
        let own = own.filter(|source| source.file.ends_with(".rs"));
        let files: Files<'_> = own.map(|source| (&source.file[..], code(&source.text))).collect();
        let mut running = Running::default();
        for root in files.keys().filter(|file| is_root(file)) {
            let mut reached = BTreeSet::new();
            if running.follow(root, true, &files, &mut reached) {
                running.parts.extend(reached);
            }
        }
        running
    }

    /// Whether a test is run in a file of code or below it, or in the target that a folder is or
    /// that a stored file is of.
    pub fn has_test(&self, path: &str) -> bool {
        self.tests.contains(&code_of(path))
    }

    /// Whether a file of code, a folder or a stored file is part of a target with a test.
    pub fn has_part(&self, path: &str) -> bool {
        self.parts.contains(&code_of(path))
    }

    /// Whether a file or a module below it has a test; adds those that have, and all to `reached`.
    /// A file that `is_owner` has its modules beside it, another one in the folder of its name.
    fn follow(
        &mut self,
        file: &str,
        is_owner: bool,
        files: &Files<'_>,
        reached: &mut BTreeSet<String>,
    ) -> bool {
        let Some(code) = files.get(file) else { return false };
        reached.insert(file.to_string());
        let mut has_test = !code.tests.is_empty();
        for (name, path) in &code.modules {
            let beside = if is_owner { parent(file) } else { file.trim_end_matches(".rs") };
            let module = match path {
                Some(path) => (join(parent(file), path), true),
                None => match format!("{beside}/{name}.rs") {
                    module if files.contains_key(&module[..]) => (module, false),
                    _ => (format!("{beside}/{name}/mod.rs"), true),
                },
            };
            has_test |= self.follow(&module.0, module.1, files, reached);
        }
        self.tests.extend(has_test.then(|| file.to_string()));
        has_test
    }
}

/// Files with what they have.
type Files<'a> = BTreeMap<&'a str, Code<'a>>;

/// The file of code that a path leads to: itself, or the root of a folder's or stored file's target.
fn code_of(path: &str) -> String {
    let inside = path.strip_prefix(TESTS).unwrap_or_default().trim_end_matches('/');
    let (folder, file) = inside.split_once('/').unwrap_or((inside, ""));
    match file.rsplit_once('.').or(folder.rsplit_once('.')) {
        Some((_, "rs")) => path.to_string(),
        Some(_) => format!("{TESTS}{folder}/main.rs"),
        None => format!("{TESTS}{inside}/main.rs"),
    }
}

/// Whether a file is a target's root: one among the tests, or the `main.rs` of a folder there.
fn is_root(file: &str) -> bool {
    let inside = file.strip_prefix(TESTS).unwrap_or_default();
    !inside.contains('/') || inside.split_once('/').is_some_and(|(_, rest)| rest == "main.rs")
}

/// The folder of a file.
fn parent(file: &str) -> &str {
    file.rsplit_once('/').map_or("", |(folder, _)| folder)
}

/// The path that leads from a folder, without `..`.
fn join(folder: &str, path: &str) -> String {
    let mut parts: Vec<&str> = folder.split('/').collect();
    for part in path.split('/') {
        if part == ".." {
            parts.pop();
        } else {
            parts.push(part);
        }
    }
    parts.join("/")
}
