//! The program's commands, from the words typed to its status.

mod admit;
mod assemble;
mod banks;
mod bar;
mod busy;
mod commands;
mod console;
mod draw;
mod failure;
mod file;
mod help;
mod input;
mod keys;
mod open;
mod options;
mod output;
mod owners;
mod print;
mod roll;
mod room;
mod run;
mod sheet;
mod shelve;
mod step;

use commands::COMMANDS;
use console::Console;
use failure::Failure;
use options::Options;
use std::ffi::OsString;
use std::process::ExitCode;

/// Does what the words behind the program's name ask, and yields the status.
pub fn main(words: &[OsString]) -> ExitCode {
    let mut console = Console::new();
    let outcome = dispatch(&mut console, words);
    console.end(outcome)
}

/// Does what the words ask.
fn dispatch(console: &mut Console, words: &[OsString]) -> Result<(), Failure> {
    let wrong = |reason| Failure::Usage { reason, usage: help::usage() };
    let Some((name, rest)) = words.split_first() else {
        return Err(wrong("a command is missing".to_string()));
    };
    if name == "help" || words.iter().any(|word| word == "--help") {
        return help::help(console);
    }
    let Some(command) = COMMANDS.iter().find(|command| name == command.name) else {
        return Err(wrong(format!("there is no command {}", name.display())));
    };
    let options = Options::parse(rest, command);
    let options = options.map_err(|reason| Failure::Usage { reason, usage: command.usage() })?;
    (command.run)(console, &options)
}
