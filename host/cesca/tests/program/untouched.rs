//! No file is changed by asking about it.

use crate::sandbox::Sandbox;
use std::fs;
use std::time::SystemTime;

/// The files of a sandbox: names, bytes, and when they were written.
fn files(sandbox: &Sandbox) -> Vec<(String, Vec<u8>, SystemTime)> {
    let names = sandbox.names().into_iter();
    let files = names.map(|name| {
        let written = fs::metadata(sandbox.path(&name)).and_then(|metadata| metadata.modified());
        let bytes = sandbox.read(&name);
        (name, bytes, written.expect("a time"))
    });
    files.collect()
}

#[test]
fn asking_changes_no_file_and_makes_none() {
    let sandbox = Sandbox::new("untouched").with_stored(&["a.bin", "masked.bin"]);
    let sandbox = sandbox.with("short.bin", "short").with("mine.txt", "routine 0 at 0 need 0");
    let before = files(&sandbox);
    for command in ["admit", "run", "busy", "room", "sheet", "step", "assemble", "draw", "print"] {
        for name in ["a.bin", "masked.bin", "short.bin", "mine.txt", "none.bin"] {
            sandbox.cesca_given(&[command, name], "\n9\n");
        }
    }
    sandbox.cesca(&["file", "short.bin", "made.bin"]);
    sandbox.cesca(&["file", "none.txt", "made.bin"]);
    sandbox.cesca(&["assemble", "short.bin", "made.banks"]);
    sandbox.cesca(&["draw", "short.bin", "made.bin"]);
    sandbox.cesca(&["draw", "masked.bin", "made.bin"]);
    sandbox.cesca(&["shelve", "short.bin", "made.shelf"]);
    sandbox.cesca(&["shelve", "none.bin", "made.shelf"]);
    sandbox.cesca(&["open", "a.bin", "made.bin"]);
    sandbox.cesca(&["open", "none.shelf", "made.bin"]);
    sandbox.cesca(&["help"]);
    assert!(files(&sandbox) == before);
}
