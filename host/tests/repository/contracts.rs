//! What anyone may call asks nothing of the caller: its contract has no `requires`.

use crate::finding::{expect_none, messages, Finding};
use crate::functions::functions;
use crate::source::{below, crates, Source};

/// The functions that a crate's users begin with, crate by crate.
const ENTRIES: [(&str, &[&str]); 13] = [
    ("decoding", &["decode"]),
    ("encoding", &["encode", "put"]),
    ("classes", &["classify"]),
    ("execution", &["execute"]),
    ("stepping", &["step"]),
    ("calls", &["start_state", "refusal"]),
    ("machine", &["run"]),
    ("timing", &["running_time"]),
    ("report", &["answer"]),
    ("printing", &["print"]),
    ("assembling", &["assemble"]),
    ("seating", &["turn"]),
    ("demands", &DEMANDS),
];

/// The functions that promise the demands.
const DEMANDS: [&str; 11] = [
    "admit",
    "run",
    "step",
    "running_time",
    "encode",
    "put",
    "instruction_returned",
    "bytes_returned",
    "alu",
    "facts",
    "examples",
];

/// The functions that a file exports to C with a `requires`.
fn exports_that_ask(source: &Source) -> Vec<Finding> {
    let exported = functions(&source.text).into_iter().filter(|function| function.exported);
    let asking = exported.filter_map(|function| Some((function.name, function.requires?)));
    asking.map(|(name, line)| asks(source, line, &name)).collect()
}

/// What is wrong with a function that must be public in one of a crate's files, and ask nothing.
fn entry_findings(name: &str, sources: &[Source]) -> Vec<Finding> {
    let named = sources.iter().flat_map(|source| {
        let named = functions(&source.text).into_iter().filter(|function| function.name == name);
        named.map(move |function| (source, function))
    });
    let named: Vec<_> = named.collect();
    if named.is_empty() {
        let file = sources.first().map_or("crates", |source| &source.file);
        return vec![Finding::new(file, 1, format!("no public `{name}` here or beside"))];
    }
    let asking = named.iter().filter_map(|(source, function)| Some((source, function.requires?)));
    asking.map(|(source, line)| asks(source, line, name)).collect()
}

/// The finding of a function that asks something.
fn asks(source: &Source, line: usize, name: &str) -> Finding {
    Finding::new(&source.file, line, format!("`{name}` has a `requires`"))
}

#[test]
fn no_export_asks_anything() {
    let crates = crates();
    let sources: Vec<Source> = crates.iter().flat_map(|name| below(name, "src", ".rt")).collect();
    let exports = sources.iter().flat_map(|source| functions(&source.text));
    assert!(exports.filter(|function| function.exported).count() >= 12, "exports are missed");
    expect_none(sources.iter().flat_map(exports_that_ask).collect());
}

#[test]
fn no_entry_asks_anything() {
    let findings = ENTRIES.iter().flat_map(|(name, entries)| {
        let sources = below(name, "src", ".rt");
        entries.iter().flat_map(move |entry| entry_findings(entry, &sources))
    });
    expect_none(findings.collect());
}

/// A file with an export and a function that ask something, and one that asks nothing.
const ASKING: &str = "\
pub extern \"C\" fn c_f(x: u8)
    requires { x }
{
}
pub fn f(x: u8)
    requires { x }
{
}
pub fn g() {
}
";

/// The same as a source.
fn asking() -> Source {
    Source::new("lib.rt", ASKING)
}

#[test]
fn an_export_that_asks_is_found() {
    assert_eq!(messages(exports_that_ask(&asking())), ["lib.rt:2: `c_f` has a `requires`"]);
}

#[test]
fn an_entry_that_asks_or_is_gone_is_found() {
    assert_eq!(messages(entry_findings("f", &[asking()])), ["lib.rt:6: `f` has a `requires`"]);
    assert_eq!(messages(entry_findings("g", &[asking()])), [""; 0]);
    let gone = ["lib.rt:1: no public `h` here or beside"];
    assert_eq!(messages(entry_findings("h", &[asking()])), gone);
    assert_eq!(messages(entry_findings("h", &[])), ["crates:1: no public `h` here or beside"]);
}
