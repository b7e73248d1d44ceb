//! `cesca admit`: whether listings are admitted.

use super::console::Console;
use super::failure::{Failure, Status};
use super::input;
use super::options::Options;
use std::io::Write;

/// Writes for each file whether its listing is admitted; of those that can't be read it is told
/// that they can't.
pub fn admit(console: &mut Console, options: &Options) -> Result<(), Failure> {
    for name in &options.files {
        match input::admitted(name) {
            Ok(admitted) => {
                writeln!(console, "{}: admitted need {}", name.display(), admitted.need())?;
            }
            Err(Failure::Refused(refusal)) => {
                console.raise(Status::Refused);
                writeln!(console, "{refusal}")?;
            }
            Err(failure) => console.tell(&failure),
        }
    }
    Ok(())
}
