//! A must-fail edit holds the lines that it changes: there is one at least, each has a line in its
//! place, and stands just once in the edit's file.

use crate::finding::{expect_none, messages, Finding};
use crate::source::{below, crates, read, Source};

/// What keeps an edit from applying to the file that it names, whose text `text_of` yields.
fn findings(edit: &Source, text_of: impl Fn(&str) -> String) -> Vec<Finding> {
    let mut found = Vec::new();
    let (mut text, mut old) = (String::new(), "");
    for (at, line) in (1..).zip(edit.text.lines()) {
        if let Some(file) = line.strip_prefix("file: ") {
            text = text_of(file);
        } else if let Some(part) = line.strip_prefix("old: ") {
            old = part;
            let times = text.matches(old).count();
            if times != 1 {
                found.push(Finding::new(&edit.file, at, format!("stands {times} times")));
            }
        } else if let Some(new) = line.strip_prefix("new: ") {
            text = text.replace(old, new);
        }
    }
    found
}

/// What is wrong with the lines of an edit: besides comments, files and pairs of an old line and a
/// new one, of which it has one at least.
fn unpaired(edit: &Source) -> Vec<Finding> {
    let lines = (1..).zip(edit.text.lines()).filter(|(_, line)| !line.starts_with('#'));
    let keys = lines.map(|(at, line)| (at, line.split_once(": ").map_or(line, |(key, _)| key)));
    let keys: Vec<(usize, &str)> = keys.collect();
    let key = |place: Option<usize>| place.and_then(|place| keys.get(place)).map(|(_, key)| *key);
    let wrong = keys.iter().enumerate().filter_map(|(place, (at, own))| {
        let what = match *own {
            "file" => None,
            "old" => (key(Some(place + 1)) != Some("new")).then_some("no new line behind it"),
            "new" => (key(place.checked_sub(1)) != Some("old")).then_some("no old line before it"),
            _ => Some("no line of an edit"),
        };
        Some(Finding::new(&edit.file, *at, what?))
    });
    let mut found: Vec<Finding> = wrong.collect();
    let changes = keys.iter().any(|(_, key)| *key == "old");
    found.extend((!changes).then(|| Finding::new(&edit.file, 1, "no line is changed")));
    found
}

#[test]
fn every_edit_changes_lines() {
    let crates = crates();
    let edits = crates.iter().flat_map(|name| below(name, "must-fail", ".edit"));
    expect_none(edits.flat_map(|edit| unpaired(&edit)).collect());
}

#[test]
fn an_edit_without_a_pair_is_found() {
    let found = |text: &str| messages(unpaired(&Source::new("e.edit", text)));
    assert_eq!(found("# Why.\nfile: a\nold: x: y\nnew: \nfile: b\nold: x\nnew: y\n"), [""; 0]);
    for text in ["", "# Why.\n", "# Why.\nfile: a\n", "# old: x\n# new: y\n"] {
        assert_eq!(found(text), ["e.edit:1: no line is changed"], "{text}");
    }
    for text in ["old: x", "old: x\nold: y\nnew: z", "old: x\nfile: a", "old: x\n# new: y"] {
        assert_eq!(found(text), ["e.edit:1: no new line behind it"], "{text}");
    }
    assert_eq!(found("old: x\nnew: y\nnew: z"), ["e.edit:3: no old line before it"]);
    assert_eq!(found("old: x\nnew: y\nold:z"), ["e.edit:3: no line of an edit"]);
}

#[test]
fn every_edit_applies() {
    let found = crates().into_iter().flat_map(|name| {
        let edits = below(&name, "must-fail", ".edit");
        let text_of = move |file: &str| read(&format!("crates/{name}/{file}")).text;
        edits.into_iter().flat_map(move |edit| findings(&edit, &text_of))
    });
    expect_none(found.collect());
}

#[test]
fn an_edit_that_does_not_apply_is_found() {
    let text = "file: a\nold: x\nnew: y\nold: y\nnew: z\nold: x\nnew: y\nold: b\nnew: c\n";
    let edit = Source::new("e.edit", text);
    let found = findings(&edit, |_| "x b b".to_string());
    assert_eq!(messages(found), ["e.edit:6: stands 0 times", "e.edit:8: stands 2 times"]);
}
