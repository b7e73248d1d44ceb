//! What the columns of the promises' tables hold.

/// What a column holds.
#[derive(Clone, Copy, Debug, PartialEq, Eq)]
pub enum Column {
    /// Words of the papers.
    Papers,
    /// Definitions, each behind its module.
    Definitions,
    /// Whatever carries a promise: functions, theorems, edits; also the text outside of tables.
    Carriers,
    /// Tests.
    Tests,
    /// Answers that an example shows.
    Examples,
}

impl Column {
    /// The column with this heading; text outside of tables has none.
    pub fn of(heading: &str) -> Option<Column> {
        Some(match heading {
            "sentence" | "line" | "misreading" | "place in 01" => Column::Papers,
            "definition" | "where it is said" => Column::Definitions,
            "contract" | "contract, theorem" | "code" | "proof or code" => Column::Carriers,
            "what carries it" | "must-fail edit" | "edit" | "ruled out" => Column::Carriers,
            "here" | "where it is" | "" => Column::Carriers,
            "test" => Column::Tests,
            "example" => Column::Examples,
            _ => return None,
        })
    }
}

/// Whether a column with this heading holds what carries a promise, and not just what tries it.
pub fn carries(heading: &str) -> bool {
    let said = ["definition", "where it is said", "what carries it"];
    let kept = ["contract", "contract, theorem", "code", "proof or code"];
    said.contains(&heading) || kept.contains(&heading)
}
