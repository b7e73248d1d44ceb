//! A file of `specs` is what a reader must believe, so it rests on no file of `proofs` of the
//! repository. The toolchain's library has plain types in a module of that name.

use crate::finding::{expect_none, messages, Finding};
use crate::source::{below, crates, lines, Source};

/// The lines of a file that import from proofs.
fn findings(source: &Source) -> Vec<Finding> {
    let found = lines(&source.text, "--").filter(|(_, line)| imports_proofs(line));
    found.map(|(at, line)| Finding::new(&source.file, at, line.trim())).collect()
}

/// What begins an import from the toolchain's library.
const LIBRARY: &str = "use Rattle.std.";

/// Whether a line imports from proofs of the repository.
fn imports_proofs(line: &str) -> bool {
    if line.starts_with(LIBRARY) {
        return false;
    }
    let mut words = line.split(|letter: char| !letter.is_alphanumeric());
    words.any(|word| word == "use") && words.any(|word| word == "proofs")
}

#[test]
fn no_definition_rests_on_a_proof() {
    let crates = crates();
    let specs: Vec<Source> = crates.iter().flat_map(|name| below(name, "specs", ".antt")).collect();
    assert!(specs.len() >= crates.len(), "{} files of specs", specs.len());
    expect_none(specs.iter().flat_map(findings).collect());
}

#[test]
fn an_import_from_proofs_is_found() {
    let text = "-- use proofs\nuse lib.L.{getD}\nuse R.s.proofs.L.{m}\n  pub use a.proofs -- b\n";
    let source = Source::new("S.antt", text);
    let wanted = ["S.antt:3: use R.s.proofs.L.{m}", "S.antt:4: pub use a.proofs"];
    assert_eq!(messages(findings(&source)), wanted);
}

#[test]
fn other_lines_are_none() {
    for line in [
        "use a.specs.B.{proofsOf}",
        "use Rattle.std.proofs.Math.Option.{none}",
        "-- no use of proofs",
        "proofs use",
        "reuse proofs",
    ] {
        let line = lines(line, "--").next().map_or("", |(_, line)| line);
        assert!(!imports_proofs(line), "{line}");
    }
}
