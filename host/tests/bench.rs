//! The benchmark ends quietly when nobody reads what it prints.

use std::io;
use std::process::Command;

#[test]
fn a_closed_pipe_ends_it_quietly() {
    let (reader, writer) = io::pipe().expect("a pipe");
    drop(reader);
    let mut bench = Command::new(env!("CARGO_BIN_EXE_bench"));
    let output = bench.stdout(writer).output().expect("the benchmark starts");
    assert_eq!((output.status.code(), &output.stderr[..]), (Some(0), &[][..]));
}
