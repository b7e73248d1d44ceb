//! What a check finds.

use std::fmt::{self, Display, Formatter};

/// Something wrong, and where.
#[derive(Debug, PartialEq, Eq)]
pub struct Finding {
    file: String,
    line: usize,
    what: String,
}

impl Finding {
    /// Something wrong on a line, the first being 1.
    pub fn new(file: &str, line: usize, what: impl Into<String>) -> Finding {
        Finding { file: file.to_string(), line, what: what.into() }
    }
}

impl Display for Finding {
    fn fmt(&self, out: &mut Formatter<'_>) -> fmt::Result {
        write!(out, "{}:{}: {}", self.file, self.line, self.what)
    }
}

/// Fails with all findings, if there are any.
pub fn expect_none(findings: Vec<Finding>) {
    let messages: Vec<String> = findings.iter().map(Finding::to_string).collect();
    assert!(messages.is_empty(), "{} found:\n{}", messages.len(), messages.join("\n"));
}

/// The findings as text, for tests of the checks.
pub fn messages(findings: Vec<Finding>) -> Vec<String> {
    findings.iter().map(Finding::to_string).collect()
}
