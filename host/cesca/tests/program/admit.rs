//! `cesca admit`.

use crate::sandbox::{expect_err, expect_out, stored, Ran, Sandbox};

/// The stored listings and what is said of each.
const STORED: [(&str, &str); 15] = [
    ("a.bin", "admitted need 2"),
    ("countdown.bin", "admitted need 0"),
    ("fibonacci.bin", "admitted need 0"),
    ("multiply.bin", "admitted need 2"),
    ("nested.bin", "admitted need 4"),
    ("max.bin", "admitted need 1"),
    ("pushes.bin", "admitted need 255"),
    ("delay.bin", "admitted need 2"),
    ("pops-return.bin", "refused 11 at 3: pop at depth 0 would take the return address"),
    ("forgotten-pop.bin", "refused 12 at 4: ret with 1 byte of routine 1 still on the stack"),
    ("understated.bin", "refused 15 at 5: the call needs 2 bytes where routine 1 has 1 left"),
    ("recursion.bin", "refused 15 at 7: the call needs 255 bytes where routine 1 has 253 left"),
    ("unmarked.bin", "refused 10 at 3: jlt tests V, which the sheet doesn't mark as settled"),
    (
        "masked.bin",
        "refused 16 at 2: mask leads to address 3, which marks V although V may be unsettled",
    ),
    ("growing.bin", "refused 16 at 1: jmp leads to address 0, which is at depth 0 where 1 is due"),
];

#[test]
fn a_line_for_each_file() {
    let names = STORED.map(|(name, _)| name);
    let sandbox = Sandbox::new("admit-stored").with_stored(&names);
    let words = [&["admit"], &names[..]].concat();
    let out = STORED.map(|(name, answer)| format!("{name}: {answer}\n")).concat();
    assert_eq!(sandbox.cesca(&words), Ran { status: 1, out, err: String::new() });
}

#[test]
fn the_status_of_each_file() {
    let sandbox = Sandbox::new("admit-status").with_stored(&STORED.map(|(name, _)| name));
    for (name, answer) in STORED {
        let status = i32::from(answer.starts_with("refused"));
        let out = format!("{name}: {answer}\n");
        assert_eq!(sandbox.cesca(&["admit", name]), Ran { status, out, err: String::new() });
    }
}

#[test]
fn admitted_ones_alone_are_good() {
    let sandbox = Sandbox::new("admit-good").with_stored(&["a.bin", "max.bin"]);
    let out = "a.bin: admitted need 2\nmax.bin: admitted need 1\na.bin: admitted need 2\n";
    expect_out(sandbox.cesca(&["admit", "a.bin", "max.bin", "a.bin"]), out);
}

#[test]
fn files_that_cannot_be_read_are_named_and_the_others_told() {
    let sandbox = Sandbox::new("admit-missing").with_stored(&["a.bin", "growing.bin"]);
    let found = sandbox.cesca(&["admit", "mine.bin", "growing.bin", ".", "a.bin"]);
    let growing = "refused 16 at 1: jmp leads to address 0, which is at depth 0 where 1 is due";
    let wanted = Ran {
        status: 2,
        out: format!("growing.bin: {growing}\na.bin: admitted need 2\n"),
        err: "mine.bin: No such file or directory\n.: Is a directory\n".to_string(),
    };
    assert_eq!(found, wanted);
}

#[test]
fn lengths_that_no_listing_has() {
    let opcodes = |opcodes: usize, arguments: usize| {
        format!("1 at 0: there are {opcodes} opcodes and {arguments} arguments, not 256 of each")
    };
    let sheet = |bytes: &str| format!("2 at 0: the sheet has {bytes}, not 512");
    let list = |bytes: &str| {
        format!("3 at 0: the routine list has {bytes}, not an even number from 2 to 128")
    };
    let long = || "3 at 0: the routine list has more than 128 bytes".to_string();
    let undescribed = "7 at 0: routine 0 begins at 0, which is not described".to_string();
    for (length, refusal) in [
        (0, opcodes(0, 0)),
        (255, opcodes(255, 0)),
        (511, opcodes(256, 255)),
        (512, sheet("0 bytes")),
        (513, sheet("1 byte")),
        (1023, sheet("511 bytes")),
        (1024, list("0 bytes")),
        (1025, list("1 byte")),
        (1151, list("127 bytes")),
        (1152, undescribed),
        (1153, long()),
        (1154, long()),
        (100_000, long()),
    ] {
        let sandbox = Sandbox::new("admit-lengths").with("mine.bin", vec![0; length]);
        let found = sandbox.cesca(&["admit", "mine.bin"]);
        let out = format!("mine.bin: refused {refusal}\n");
        assert_eq!(found, Ran { status: 1, out, err: String::new() }, "{length} bytes");
    }
}

#[test]
fn standard_input() {
    let sandbox = Sandbox::new("admit-standard-input").with_stored(&["max.bin"]);
    let out = "-: admitted need 2\nmax.bin: admitted need 1\n";
    expect_out(sandbox.cesca_given(&["admit", "-", "max.bin"], stored("a.bin")), out);
}

#[test]
fn input_without_an_end_is_not_read_to_its_end() {
    let sandbox = Sandbox::new("admit-endless");
    let out = "/dev/zero: refused 3 at 0: the routine list has more than 128 bytes\n".to_string();
    let found = sandbox.cesca(&["admit", "/dev/zero"]);
    assert_eq!(found, Ran { status: 1, out, err: String::new() });
}

#[cfg(unix)]
#[test]
fn names_that_are_no_text() {
    use std::ffi::OsStr;
    use std::os::unix::ffi::OsStrExt;

    let sandbox = Sandbox::new("admit-names");
    let words = [OsStr::new("admit"), OsStr::from_bytes(b"m\xFFne.bin")];
    expect_err(sandbox.cesca(&words), 2, "m\u{FFFD}ne.bin: No such file or directory\n");
}
