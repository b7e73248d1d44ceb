//! `cesca step`: a run step by step.

mod request;
mod session;

use super::console::Console;
use super::failure::Failure;
use super::input;
use super::options::Options;
use request::StepRequest;
use session::Session;
use std::ffi::OsStr;
use std::io::{self, Write};

/// Shows the state before each step of a run of the admitted listing in a file, as many steps as
/// standard input asks for, and the stop if the run comes to it.
pub fn step(console: &mut Console, options: &Options) -> Result<(), Failure> {
    let name = &options.files[0];
    if name == input::STANDARD {
        let reason = "the listing can't be read from standard input, which has the steps";
        return Err(Failure::File(format!("{}: {reason}", name.display())));
    }
    let admitted = input::admitted(name)?;
    let mut session = Session::new(&admitted, options.keys(0));
    let mut input = io::stdin().lock();
    loop {
        session.show(console)?;
        console.flush()?;
        let request = StepRequest::read(&mut input);
        match request.map_err(|error| Failure::of_file(OsStr::new(input::STANDARD), &error))? {
            StepRequest::Quit => return Ok(()),
            StepRequest::Unknown(line) => console.tell(&Failure::File(format!(
                "{line:?} is no number of steps: an empty line makes one, q ends"
            ))),
            StepRequest::Steps(number) => {
                if let Some(stop) = session.steps(console, name, number)? {
                    writeln!(console, "stop: {stop}")?;
                    return Ok(());
                }
            }
        }
    }
}
