//! The bytes worked out on the page are what the library gives.

use super::PAGE;
use crate::finding::{expect_none, messages, Finding};
use crate::source::{read, Source};
use crate::table::{rows, Row};

/// The shifts with the numbers of their ALU functions.
const SHIFTS: [(&str, u8); 4] = [("sll", 12), ("srl", 13), ("sra", 14), ("rol", 15)];

/// A row's cell below a heading.
fn cell<'a>(row: &Row<'a>, heading: &str) -> Option<&'a str> {
    row.cells.iter().find(|cell| cell.heading == heading).map(|cell| cell.text)
}

/// A row's number, unless its bits are shown and are others.
fn number(row: &Row<'_>, heading: &str, bits: &str) -> Option<u8> {
    let number: u8 = cell(row, heading)?.parse().ok()?;
    let shown = cell(row, bits).map(|bits| bits.replace(' ', ""));
    shown.is_none_or(|shown| shown == format!("{number:08b}")).then_some(number)
}

/// A shift worked out on a page.
struct Worked {
    function: u8,
    byte: u8,
    result: u8,
    carry: bool,
}

/// What a row works out, if it can be read.
fn worked(row: &Row<'_>) -> Option<Worked> {
    let name = cell(row, "function")?;
    let (_, function) = SHIFTS.into_iter().find(|(shift, _)| *shift == name)?;
    let byte = number(row, "byte", "in bits")?;
    let result = number(row, "result", "result in bits")?;
    let carry = ["0", "1"].iter().position(|digit| Some(*digit) == cell(row, "C"))? == 1;
    Some(Worked { function, byte, result, carry })
}

/// The rows of a page that work something out.
fn worked_rows(page: &str) -> Vec<Row<'_>> {
    rows(page).into_iter().filter(|row| cell(row, "function").is_some()).collect()
}

/// Whether a row is what the library gives.
fn is_right(row: &Row<'_>) -> bool {
    worked(row).is_some_and(|worked| {
        let found = cesca::alu(worked.function, worked.byte, 0, !worked.carry);
        (found.value, found.c) == (worked.result, worked.carry)
    })
}

/// The worked rows of a page that aren't right.
fn row_findings(page: &Source) -> Vec<Finding> {
    let wrong = worked_rows(&page.text).into_iter().filter(|row| !is_right(row));
    wrong.map(|row| Finding::new(&page.file, row.line, "this is worked wrongly")).collect()
}

#[test]
fn the_worked_bytes_are_right() {
    let page = read(PAGE);
    expect_none(row_findings(&page));
    let rows = worked_rows(&page.text);
    for (name, _) in SHIFTS {
        let of_shift = rows.iter().filter(|row| cell(row, "function") == Some(name));
        assert!(of_shift.count() >= 2, "{name}");
    }
}

#[test]
fn wrong_bytes_are_found() {
    let found = |row: &str| {
        let head = "| function | byte | in bits | result | C |\n|---|---|---|---|---|\n";
        messages(row_findings(&Source::new("P.md", &format!("{head}{row}\n"))))
    };
    assert_eq!(found("| sll | 200 | 1100 1000 | 144 | 1 |"), [""; 0]);
    for wrong in [
        "| sll | 200 | 1100 1000 | 144 | 0 |",
        "| sll | 200 | 1100 1000 | 145 | 1 |",
        "| sll | 200 | 1100 1001 | 144 | 1 |",
        "| rol | 200 | 1100 1000 | 144 | 1 |",
        "| ror | 200 | 1100 1000 | 144 | 1 |",
        "| sll | 200 | 1100 1000 | 144 | 2 |",
        "| sll | 456 | 1100 1000 | 144 | 1 |",
    ] {
        assert_eq!(found(wrong), ["P.md:3: this is worked wrongly"], "{wrong}");
    }
}
