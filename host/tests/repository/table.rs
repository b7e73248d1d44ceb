//! Tables of Markdown.

/// A row of a table, or a line outside of tables as a row of one cell without a heading.
#[derive(Debug)]
pub struct Row<'a> {
    /// The line, the first being 1.
    pub line: usize,
    /// The number of headings above it.
    pub headings: usize,
    /// The cells, each with the heading of its column.
    pub cells: Vec<Cell<'a>>,
}

/// A cell.
#[derive(Clone, Copy, Debug, PartialEq, Eq)]
pub struct Cell<'a> {
    /// The heading of its column.
    pub heading: &'a str,
    /// What it says.
    pub text: &'a str,
}

/// The rows of a text, without headings and rules.
pub fn rows(text: &str) -> Vec<Row<'_>> {
    let mut headings: Option<Vec<&str>> = None;
    let mut rows = Vec::new();
    for (line, content) in (1..).zip(text.lines()) {
        let Some(cells) = cells(content) else {
            headings = None;
            let cells = vec![Cell { heading: "", text: content }];
            rows.push(Row { line, headings: 0, cells });
            continue;
        };
        let Some(headings) = &headings else {
            headings = Some(cells);
            continue;
        };
        if !cells.iter().all(|text| text.starts_with("--")) {
            let columns = headings.iter().chain(std::iter::repeat(&""));
            let cells = columns.zip(cells).map(|(heading, text)| Cell { heading, text });
            rows.push(Row { line, headings: headings.len(), cells: cells.collect() });
        }
    }
    rows
}

/// The cells of a line, if it is one of a table.
fn cells(line: &str) -> Option<Vec<&str>> {
    let inner = line.trim().strip_prefix('|')?;
    Some(inner.strip_suffix('|').unwrap_or(inner).split('|').map(str::trim).collect())
}

/// What stands in backquotes.
pub fn quoted(text: &str) -> impl Iterator<Item = &str> {
    text.split('`').skip(1).step_by(2)
}

#[test]
fn a_table_has_rows_with_headings() {
    let rows = rows("text `a`\n\n| one | two |\n|---|---|\n| 1 | `b`, `c` |\n|2||\nend");
    let messages: Vec<(usize, Vec<(&str, &str)>)> = rows
        .iter()
        .map(|row| (row.line, row.cells.iter().map(|cell| (cell.heading, cell.text)).collect()))
        .collect();
    let wanted = [
        (1, vec![("", "text `a`")]),
        (2, vec![("", "")]),
        (5, vec![("one", "1"), ("two", "`b`, `c`")]),
        (6, vec![("one", "2"), ("two", "")]),
        (7, vec![("", "end")]),
    ];
    assert_eq!(messages, wanted);
    assert_eq!(rows.iter().map(|row| row.headings).collect::<Vec<_>>(), [0, 0, 2, 2, 0]);
}

#[test]
fn backquotes_hold_names() {
    assert_eq!(quoted("`a`, b and `c d`; `e").collect::<Vec<_>>(), ["a", "c d", "e"]);
    assert_eq!(quoted("none").count(), 0);
}
