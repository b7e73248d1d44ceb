//! The desk program on stored inputs, byte for byte.
//!
//! Each `NAME.in` is what the case of that name makes, stored by `cargo run --example store`. Each
//! `NAME.out` was worked out by hand.

mod cases;
mod failing;
#[path = "../common/stored.rs"]
mod stored;

use cases::cases;
use std::path::PathBuf;
use stored::{names, path, read, text};

/// The stored file of a case.
fn file(name: &str, ending: &str) -> PathBuf {
    path("tests/desk").join(name).with_extension(ending)
}

/// Checks what is printed on each stored input.
fn check(desk: impl Fn(&str) -> String) {
    for (name, _) in cases() {
        assert_eq!(desk(name), text(&file(name, "out")), "{name}");
    }
}

#[test]
fn the_desk_prints_what_is_stored() {
    check(|name| stored::desk(&file(name, "in")));
}

#[test]
fn the_references_print_what_is_stored() {
    check(|name| reference::desk(&read(&file(name, "in"))));
}

#[test]
fn the_inputs_are_those_of_the_cases() {
    let mut wanted: Vec<String> = cases().iter().map(|(name, _)| name.to_string()).collect();
    wanted.sort();
    for ending in [".in", ".out"] {
        assert_eq!(names(&path("tests/desk"), ending), wanted);
    }
    for (name, input) in cases() {
        assert!(read(&file(name, "in")) == input, "{name}.in is another input");
    }
}

#[test]
fn every_ground_is_refused() {
    let printed: Vec<String> = cases().iter().map(|(name, _)| text(&file(name, "out"))).collect();
    for number in 1..=16 {
        let start = format!("refused {number} at ");
        assert!(printed.iter().any(|text| text.starts_with(&start)), "{start}");
    }
}
