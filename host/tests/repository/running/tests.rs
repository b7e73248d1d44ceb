//! What is run of small files, and of the host's.

use super::Running;
use crate::finding::{expect_none, Finding};
use crate::source::{files, read, Source};

/// A test.
const TEST: &str = "#[test]\nfn it_runs() {}\n";

/// What is run of these files of the tests.
fn running(files: &[(&str, &str)]) -> Running {
    let sources = files.iter().map(|(file, text)| Source::new(&format!("host/tests/{file}"), text));
    Running::of(&sources.collect::<Vec<_>>())
}

/// Checks in which of these files a test is run.
fn check(files: &[(&str, &str)], wanted: &[&str]) {
    let running = running(files);
    let found = files.iter().map(|(file, _)| *file);
    let found = found.filter(|file| running.has_test(&format!("host/tests/{file}")));
    assert_eq!(found.collect::<Vec<_>>(), wanted, "{files:?}");
}

#[test]
fn tests_are_run_where_modules_lead_to() {
    let main = "run/main.rs";
    check(&[("a.rs", TEST), ("b.rs", ""), ("run/a.rs", TEST)], &["a.rs"]);
    check(&[(main, "mod a;"), ("run/a.rs", TEST), ("run/b.rs", TEST)], &[main, "run/a.rs"]);
    check(&[(main, "mod a;"), ("run/a/mod.rs", TEST)], &[main, "run/a/mod.rs"]);
    check(&[(main, TEST), ("run/a.rs", "mod b;"), ("run/a/b.rs", TEST)], &[main]);
    let files = [(main, "mod a;"), ("run/a.rs", "mod b;"), ("run/a/b.rs", TEST)];
    check(&files, &[main, "run/a.rs", "run/a/b.rs"]);
    let files = [(main, "mod a;"), ("run/a.rs", "mod b;"), ("run/b.rs", TEST)];
    check(&files, &[]);
    let files = [("run/a/mod.rs", "mod b;"), ("run/a/b.rs", TEST), (main, "mod a;")];
    check(&files, &["run/a/mod.rs", "run/a/b.rs", main]);
}

#[test]
fn a_path_leads_from_the_file_that_gives_it() {
    let main = ("run/main.rs", "#[path = \"../common/a.rs\"]\nmod x;");
    check(&[main, ("common/a.rs", TEST), ("run/x.rs", TEST)], &["run/main.rs", "common/a.rs"]);
    let files = [main, ("common/a.rs", "mod b;"), ("common/b.rs", TEST), ("common/a/b.rs", TEST)];
    check(&files, &["run/main.rs", "common/a.rs", "common/b.rs"]);
}

#[test]
fn a_test_that_is_ignored_or_left_out_is_not_run() {
    let ignored = "#[test]\n#[ignore]\nfn it_runs() {}\n";
    check(&[("run/main.rs", "mod a;"), ("run/a.rs", ignored)], &[]);
    check(&[("run/main.rs", "mod a;"), ("run/a.rs", "fn it_runs() {}")], &[]);
    check(&[("run/main.rs", "// mod a;"), ("run/a.rs", TEST)], &[]);
    check(&[("run/other.rs", "mod a;"), ("run/a.rs", TEST)], &[]);
}

#[test]
fn folders_and_stored_files_are_of_a_target() {
    let running = running(&[("run/main.rs", "mod a;"), ("run/a.rs", TEST), ("desk/main.rs", "")]);
    for path in ["run", "run/", "run/a.txt", "run/b/c.out"] {
        let path = format!("host/tests/{path}");
        assert!(running.has_test(&path) && running.has_part(&path), "{path}");
    }
    for path in ["desk", "desk/a.out", "run/b", "run.txt", ""] {
        let path = format!("host/tests/{path}");
        assert!(!running.has_test(&path) && !running.has_part(&path), "{path}");
    }
}

#[test]
fn a_part_is_of_a_target_with_a_test() {
    let running = running(&[
        ("run/main.rs", "mod a;\nmod b;"),
        ("run/a.rs", TEST),
        ("run/b.rs", ""),
        ("desk/main.rs", "mod c;"),
        ("desk/c.rs", ""),
    ]);
    for (file, is_part) in [("run/b.rs", true), ("desk/c.rs", false), ("desk/main.rs", false)] {
        assert_eq!(running.has_part(&format!("host/tests/{file}")), is_part, "{file}");
        assert!(!running.has_test(&format!("host/tests/{file}")), "{file}");
    }
}

#[test]
fn every_file_of_the_tests_is_part_of_a_target() {
    let sources = files("host/tests", ".rs");
    assert!(sources.len() >= 70, "only {} files are seen", sources.len());
    let running = Running::of(&sources);
    let left_out = sources.iter().filter(|source| !running.has_part(&source.file));
    expect_none(left_out.map(|source| Finding::new(&source.file, 1, "isn't run")).collect());
}

#[test]
fn the_targets_are_those_that_cargo_finds_by_itself() {
    let manifest = read("host/Cargo.toml").text;
    assert!(!manifest.contains("autotests") && !manifest.contains("[[test]]"), "{manifest}");
}
