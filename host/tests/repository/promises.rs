//! The promises name every must-fail edit, nothing that isn't there, and no row without a carrier.

mod columns;
mod filled;
mod lookup;
mod names;
mod tested;
mod tests;

use crate::finding::{expect_none, Finding};
use crate::known::Known;
use crate::source::{read, Source};
use crate::table::{quoted, rows, Cell, Row};
use columns::Column;
use names::{names, Kind};
use std::collections::BTreeSet;

/// The edits that no line names, as `crate/edit`.
fn unnamed(promises: &Source, known: &Known) -> Vec<Finding> {
    let named: BTreeSet<&str> = promises.text.lines().flat_map(quoted).collect();
    let unnamed = known.edits().filter(|edit| !named.contains(edit.as_str()));
    let findings = unnamed.map(|edit| {
        let file = format!("crates/{}.edit", edit.replace('/', "/must-fail/"));
        Finding::new(&file, 1, format!("{} doesn't name it", promises.file))
    });
    findings.collect()
}

/// What is named and isn't there.
fn missing(promises: &Source, known: &Known) -> Vec<Finding> {
    let mut findings = Vec::new();
    for row in rows(&promises.text) {
        let wrong = row.cells.iter().flat_map(|cell| missing_in(cell, known));
        findings.extend(wrong.map(|what| Finding::new(&promises.file, row.line, what)));
    }
    findings
}

/// What is named in a cell and isn't there, or why that can't be told.
fn missing_in(cell: &Cell<'_>, known: &Known) -> Vec<String> {
    let is_odd = |mark: char| cell.text.matches(mark).count() % 2 == 1;
    let Some(column) = Column::of(cell.heading) else {
        return vec![format!("no rule for the column \"{}\"", cell.heading)];
    };
    let (names, tests) = (names(cell.text), tested::tests(cell.text));
    match column {
        Column::Papers => Vec::new(),
        _ if is_odd('`') => vec!["a backquote without another".to_string()],
        Column::Tests if is_odd('"') => vec!["a quote without another".to_string()],
        Column::Definitions => {
            names.iter().filter_map(|name| lookup::wrong_definition(name, known)).collect()
        }
        Column::Carriers => names.iter().filter_map(|name| lookup::wrong(name, known)).collect(),
        Column::Tests => tests.iter().filter_map(|test| tested::wrong(*test, known)).collect(),
        Column::Examples => tested::wrong_examples(cell.text, known),
    }
}

/// The promises.
fn promises() -> Source {
    read("docs/PROMISES.md")
}

#[test]
fn every_edit_is_named() {
    let known = Known::read();
    let edits = known.edits().count();
    assert!(edits >= 90, "only {edits} edits are seen");
    expect_none(unnamed(&promises(), &known));
}

#[test]
fn everything_that_is_named_is_there() {
    expect_none(missing(&promises(), &Known::read()));
}

/// What stands in the columns of a kind.
fn texts<'a>(rows: &[Row<'a>], column: Column) -> Vec<&'a str> {
    let cells = rows.iter().flat_map(|row| &row.cells);
    let wanted = cells.filter(|cell| Column::of(cell.heading) == Some(column));
    wanted.map(|cell| cell.text).collect()
}

#[test]
fn enough_names_are_looked_at() {
    let promises = promises();
    let rows = rows(&promises.text);
    let count = |column, wanted: fn(&Kind<'_>) -> bool| {
        let names = texts(&rows, column).into_iter().flat_map(names);
        names.filter(|name| wanted(&name.kind)).count()
    };
    let tests: Vec<_> = texts(&rows, Column::Tests).into_iter().flat_map(tested::tests).collect();
    for (found, enough, what) in [
        (count(Column::Definitions, |kind| *kind != Kind::Module), 200, "definitions"),
        (count(Column::Carriers, |kind| matches!(kind, Kind::Path(_))), 200, "paths"),
        (count(Column::Carriers, |kind| matches!(kind, Kind::Item(..))), 150, "functions"),
        (count(Column::Carriers, |kind| matches!(kind, Kind::Field(..))), 20, "fields"),
        (tests.len(), 80, "tests"),
        (tests.iter().filter(|(_, case)| case.is_some()).count(), 15, "cases"),
    ] {
        assert!(found >= enough, "only {found} {what} are looked at");
    }
}
