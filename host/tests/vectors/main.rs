//! Cases worked out from the papers by somebody else, a folder for each request of 02: the library
//! and the reference answer what they say, and leave what they say in all that they were lent.

mod admit;
#[allow(dead_code)]
#[path = "../source/banks.rs"]
mod banks;
mod blocks;
#[allow(dead_code)]
#[path = "../busy/buffers.rs"]
mod buffers;
mod busy;
mod draw;
#[path = "../draw/drawers.rs"]
mod drawers;
mod file;
#[allow(dead_code)]
#[path = "../common/memory.rs"]
mod memory;
#[path = "../seats/room.rs"]
mod room;
mod rooms;
mod run;
#[path = "../busy/runners.rs"]
mod runners;
#[allow(dead_code)]
#[path = "../draw/buffers.rs"]
mod sheets;
mod shelf;
#[allow(dead_code)]
#[path = "../shelf/buffers.rs"]
mod shelf_buffers;
#[path = "../shelf/shelvers.rs"]
mod shelvers;
mod shifts;
#[path = "../source/sides.rs"]
mod sides;
mod source;
#[allow(dead_code)]
#[path = "../common/stored.rs"]
mod stored;
#[path = "../seats/turners.rs"]
mod turners;
mod turns;
mod values;

use stored::{names, path, text};

/// The folders that must be there; any other that lies beside them is run too.
const FOLDERS: [&str; 7] =
    ["01-text", "02-drawn", "03-busy", "04-mov-v", "05-seats", "06-shifts", "07-shelf"];

/// The folders of cases that lie here.
fn folders() -> Vec<String> {
    let here = path("tests/vectors");
    let mut folders = names(&here, "");
    folders.retain(|name| here.join(name).is_dir());
    folders
}

/// What is wrong with the cases of a folder; one without a file is wrong too.
fn findings(folder: &str) -> Vec<String> {
    let folder = path("tests/vectors").join(folder);
    let files = names(&folder, "");
    if files.is_empty() {
        return vec![format!("{}: no file", folder.display())];
    }
    let outcomes = |name: &String| file::outcomes(name, &text(&folder.join(name)));
    files.iter().flat_map(outcomes).filter_map(Result::err).collect()
}

#[test]
fn every_folder_is_there() {
    let folders = folders();
    for folder in FOLDERS {
        assert!(folders.iter().any(|name| name == folder), "{folder} is missing");
    }
}

#[test]
fn every_case_holds() {
    for folder in folders() {
        let wrong = findings(&folder);
        assert!(wrong.is_empty(), "{folder}:\n{}", wrong.join("\n"));
    }
}
