//! The rows are there, and each of them says what carries its sentence.

use super::columns::carries;
use super::promises;
use crate::finding::{expect_none, messages, Finding};
use crate::source::Source;
use crate::table::{rows, Cell, Row};

/// The rows that there are at least. A row that is dropped takes its names with it, so that no
/// other check would miss it. Who adds a row raises this.
const ROWS: usize = 255;

/// What is wrong with the rows: one that is not filled, or fewer of them than `least`.
fn findings(promises: &Source, least: usize) -> Vec<Finding> {
    let all = rows(&promises.text);
    let rows: Vec<&Row<'_>> = all.iter().filter(|row| row.headings > 0).collect();
    let wrong = rows.iter().filter_map(|row| Some((row.line, wrong(row)?)));
    let mut found: Vec<Finding> =
        wrong.map(|(line, what)| Finding::new(&promises.file, line, what)).collect();
    let few = format!("{} rows, and there were {least}", rows.len());
    found.extend((rows.len() < least).then(|| Finding::new(&promises.file, 1, few)));
    found
}

/// What is wrong with a row of a table, if something is.
fn wrong(row: &Row<'_>) -> Option<&'static str> {
    let (sentence, behind) = row.cells.split_first()?;
    let mut carriers = behind.iter().filter(|cell| carries(cell.heading)).peekable();
    if row.cells.len() != row.headings {
        Some("not a cell for each heading")
    } else if is_blank(sentence) {
        Some("no sentence")
    } else if behind.iter().all(is_blank) {
        Some("nothing behind the sentence")
    } else if carriers.peek().is_some() && carriers.all(is_blank) {
        Some("nothing that carries the sentence")
    } else {
        None
    }
}

/// Whether a cell says nothing.
fn is_blank(cell: &Cell<'_>) -> bool {
    !cell.text.contains(char::is_alphanumeric)
}

#[test]
fn every_row_is_there_and_filled() {
    expect_none(findings(&promises(), ROWS));
}

/// What is wrong with a row below these headings, on line 3.
fn found(headings: &str, row: &str) -> Vec<String> {
    let text = format!("| {headings} |\n|---|---|\n| {row} |\n");
    messages(findings(&Source::new("P.md", &text), 1))
}

#[test]
fn a_row_that_is_not_filled_is_found() {
    let headings = "sentence | definition | contract, theorem | must-fail edit | test";
    for (row, what) in [
        ("a | | | |", "nothing behind the sentence"),
        ("a | - | .. | |", "nothing behind the sentence"),
        ("a | | | `b/c` | d.rs", "nothing that carries the sentence"),
        (" | B: `b` | `b::c` | `b/c` | d.rs", "no sentence"),
        ("a | B: `b` | `b::c` | d.rs", "not a cell for each heading"),
        ("a | B: `b` | `b::c` | `b/c` | d.rs | e", "not a cell for each heading"),
    ] {
        assert_eq!(found(headings, row), [format!("P.md:3: {what}")], "{row}");
    }
    assert_eq!(found("sentence | code", "a | "), ["P.md:3: nothing behind the sentence"]);
    assert_eq!(found("contract | ruled out", "a | "), ["P.md:3: nothing behind the sentence"]);
    assert_eq!(found("misreading | edit", "a | "), ["P.md:3: nothing behind the sentence"]);
}

#[test]
fn a_row_may_have_blank_cells_beside_others() {
    let headings = "sentence | definition | code | must-fail edit | test";
    for row in ["a | B: `b` | | |", "a | | `b::c` | |", "a | under 'A run' | | `b/c` | d.rs"] {
        assert_eq!(found(headings, row), [""; 0], "{row}");
    }
    assert_eq!(found("misreading | edit", "a | `b/c`"), [""; 0]);
}

#[test]
fn a_row_that_is_gone_is_found() {
    let table = "text\n\n| line | here |\n|---|---|\n| a | b |\n| c | d |\n\ntext\n";
    let found = |least| messages(findings(&Source::new("P.md", table), least));
    assert_eq!(found(2), [""; 0]);
    assert_eq!(found(3), ["P.md:1: 2 rows, and there were 3"]);
}
