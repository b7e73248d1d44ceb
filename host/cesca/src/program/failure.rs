//! What can keep the program from doing what it is asked.

use cesca::{Refusal, TextError};
use std::error::Error;
use std::ffi::OsStr;
use std::fmt::{self, Display, Formatter};
use std::io::{self, ErrorKind};

/// What the program's status tells, the worst last.
#[derive(Clone, Copy, PartialEq, Eq, PartialOrd, Ord)]
pub enum Status {
    /// All went well.
    Good = 0,
    /// A listing, its text or a call was refused.
    Refused = 1,
    /// Usage or input is wrong.
    Wrong = 2,
}

/// Why the program can't do what it is asked.
pub enum Failure {
    /// It is asked for something that there isn't.
    Usage { reason: String, usage: String },
    /// A file can't be read or written, or isn't what it should be.
    File(String),
    /// A listing, its text or a call is refused.
    Refused(String),
    /// Standard output can't be written.
    Output(io::Error),
}

impl Failure {
    /// The failure to read or write a file.
    pub fn of_file(name: &OsStr, error: &io::Error) -> Failure {
        Failure::File(format!("{}: {}", name.display(), plain(error)))
    }

    /// The refusal of a file's listing, of its source, or of a call for it.
    pub fn of_refusal(name: &OsStr, refusal: &impl Error) -> Failure {
        Failure::Refused(format!("{}: refused {refusal}", name.display()))
    }

    /// The refusal of a call for the value of an option.
    pub fn of_option(option: &str, refusal: &Refusal) -> Failure {
        Failure::Refused(format!("{option}: refused {refusal}"))
    }

    /// The refusal of a listing's text.
    pub fn of_text(name: &OsStr, error: &TextError) -> Failure {
        Failure::Refused(format!("{}: {error}", name.display()))
    }

    /// The status with which the program ends; a closed pipe leaves it as it was.
    pub fn status(&self) -> Status {
        match self {
            Failure::Refused(_) => Status::Refused,
            _ if self.is_closed_pipe() => Status::Good,
            _ => Status::Wrong,
        }
    }

    /// Whether nobody reads standard output any longer.
    pub fn is_closed_pipe(&self) -> bool {
        matches!(self, Failure::Output(error) if error.kind() == ErrorKind::BrokenPipe)
    }
}

impl From<io::Error> for Failure {
    fn from(error: io::Error) -> Failure {
        Failure::Output(error)
    }
}

impl Display for Failure {
    fn fmt(&self, out: &mut Formatter<'_>) -> fmt::Result {
        match self {
            Failure::Usage { reason, usage } => write!(out, "cesca: {reason}\nusage: {usage}"),
            Failure::File(message) | Failure::Refused(message) => out.write_str(message),
            Failure::Output(error) => write!(out, "standard output: {}", plain(error)),
        }
    }
}

/// What went wrong, without the system's number for it.
fn plain(error: &io::Error) -> String {
    let mut shown = error.to_string();
    if let Some(number) = shown.find(" (os error ") {
        shown.truncate(number);
    }
    shown
}
