//! Tables: things of one kind in lines and columns.

use std::iter;

/// A column of a table about things of one kind.
pub struct Column<T> {
    heading: &'static str,
    /// Whether it is aligned to the right.
    right: bool,
    /// What stands there of a thing.
    cell: fn(&T) -> String,
}

impl<T> Column<T> {
    /// A column that is aligned to the left.
    pub fn left(heading: &'static str, cell: fn(&T) -> String) -> Column<T> {
        Column { heading, right: false, cell }
    }

    /// A column that is aligned to the right.
    pub fn right(heading: &'static str, cell: fn(&T) -> String) -> Column<T> {
        Column { heading, right: true, cell }
    }
}

/// The lines of a table: the headings, and below them a line for each of these things.
pub fn lines<T>(columns: &[Column<T>], things: impl Iterator<Item = T>) -> Vec<String> {
    let headings = columns.iter().map(|column| column.heading.to_string()).collect();
    let cells = |thing: T| columns.iter().map(|column| (column.cell)(&thing)).collect();
    let rows: Vec<Vec<String>> = iter::once(headings).chain(things.map(cells)).collect();
    let width = |at: usize| rows.iter().map(|row| row[at].chars().count()).max();
    let widths: Vec<usize> = (0..columns.len()).map(|at| width(at).unwrap_or(0)).collect();
    rows.iter().map(|row| line(columns, row, &widths)).collect()
}

/// A row as a line, two spaces between its cells. The last cell is not filled up, and nothing
/// stands for an empty one.
fn line<T>(columns: &[Column<T>], row: &[String], widths: &[usize]) -> String {
    let Some((last, cells)) = row.split_last() else { return String::new() };
    let cells = cells.iter().zip(widths).zip(columns).map(|((cell, width), column)| {
        if column.right {
            format!("{cell:>width$}")
        } else {
            format!("{cell:<width$}")
        }
    });
    let space = if last.is_empty() { "" } else { "  " };
    cells.collect::<Vec<_>>().join("  ") + space + last
}

#[cfg(test)]
mod tests {
    use super::*;

    /// What is told of a thing in the tables here.
    type Thing = (&'static str, u32, &'static str);

    /// Columns of both alignments.
    fn columns() -> [Column<Thing>; 4] {
        [
            Column::right("no", |thing| thing.1.to_string()),
            Column::left("name", |thing| thing.0.to_string()),
            Column::right("twice", |thing| (2 * thing.1).to_string()),
            Column::left("roll", |thing| thing.2.to_string()),
        ]
    }

    #[test]
    fn headings_alone() {
        assert_eq!(lines(&columns(), iter::empty()), ["no  name  twice  roll"]);
    }

    #[test]
    fn columns_are_as_wide_as_their_widest_cell() {
        let things = [("über.bin", 600_000, " A "), ("b", 7, "")];
        let wanted = [
            "    no  name        twice  roll",
            "600000  über.bin  1200000   A ",
            "     7  b              14",
        ];
        assert_eq!(lines(&columns(), things.into_iter()), wanted);
    }
}
