//! The program `cesca`: assembles texts, draws sheets, admits listings, runs them, tells where the
//! steps went, lets several take turns, shows their sheets, steps through them, and writes and
//! opens shelf files.

mod program;

use std::env;
use std::ffi::OsString;
use std::process::ExitCode;

fn main() -> ExitCode {
    let words: Vec<OsString> = env::args_os().skip(1).collect();
    program::main(&words)
}
