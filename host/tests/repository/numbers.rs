//! The README's table of numbers has each ground of the papers once.

use crate::finding::{expect_none, messages, Finding};
use crate::source::{read, Source};
use crate::table::{rows, Row};

/// The last of the grounds, which are numbered from 1.
const LAST: usize = 32;

/// The heading of the numbers' column.
const HEADING: &str = "number";

/// What is wrong with the tables of numbers: a row without a ground's number, a number again, a
/// ground that has no row.
fn findings(source: &Source) -> Vec<Finding> {
    let mut met = [false; LAST + 1];
    let mut findings = Vec::new();
    for row in rows(&source.text) {
        let Some(number) = number(&row) else { continue };
        let ground = number.parse().ok().filter(|number| (1..=LAST).contains(number));
        let wrong = match ground {
            None => Some(format!("{number} is no ground's number")),
            Some(ground) if met[ground] => Some(format!("{ground} stands here again")),
            Some(ground) => {
                met[ground] = true;
                None
            }
        };
        findings.extend(wrong.map(|what| Finding::new(&source.file, row.line, what)));
    }
    let missing = (1..=LAST).filter(|ground| !met[*ground]);
    let last = source.text.lines().count();
    findings.extend(
        missing.map(|ground| Finding::new(&source.file, last, format!("{ground} has no row"))),
    );
    findings
}

/// What stands in a row's column of numbers.
fn number<'a>(row: &Row<'a>) -> Option<&'a str> {
    row.cells.iter().find(|cell| cell.heading == HEADING).map(|cell| cell.text)
}

#[test]
fn each_ground_has_a_row() {
    expect_none(findings(&read("README.md")));
}

/// A README whose table has these numbers.
fn readme(numbers: impl IntoIterator<Item = usize>) -> Source {
    let rows = numbers.into_iter().map(|number| format!("| {number} | wrong | 0 |\n"));
    let text = format!("# Title\n\n| number | what |\n|---|---|\n{}", rows.collect::<String>());
    Source::new("README.md", &text)
}

#[test]
fn each_number_once_is_right() {
    assert_eq!(findings(&readme(1..=LAST)), []);
}

#[test]
fn a_missing_number_is_found() {
    let found = findings(&readme((1..=LAST).filter(|number| *number != 7)));
    assert_eq!(messages(found), ["README.md:35: 7 has no row"]);
}

#[test]
fn a_number_again_and_no_number_are_found() {
    let found = findings(&readme((1..=LAST).chain([5, 33])));
    let wanted = ["README.md:37: 5 stands here again", "README.md:38: 33 is no ground's number"];
    assert_eq!(messages(found), wanted);
}

#[test]
fn a_table_that_is_gone_is_found() {
    assert_eq!(findings(&readme([])).len(), LAST);
    let text = readme(1..=LAST).text.replace(HEADING, "ground");
    assert_eq!(findings(&Source::new("README.md", &text)).len(), LAST);
}
