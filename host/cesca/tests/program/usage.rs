//! How the program is used, and how it isn't.

use crate::sandbox::{expect_err, expect_out, Sandbox};

/// The usage lines of the commands.
const COMMANDS: [&str; 13] = [
    "cesca admit FILE..",
    "cesca run FILE [--keys 1,2,3] [--steps N] [--hz N]",
    "cesca busy FILE [--keys 1,2,3] [--steps N] [--hz N]",
    "cesca room FILE [--keys 1,2,3] .. [--slice N] [--steps N]",
    "cesca sheet FILE",
    "cesca step FILE [--keys 1,2,3]",
    "cesca assemble SOURCE [BANKS]",
    "cesca draw SOURCE|BANKS|FILE [FILE]",
    "cesca print BANKS|FILE",
    "cesca file TEXT FILE",
    "cesca shelve FILE SHELF",
    "cesca open SHELF FILE",
    "cesca help",
];

/// How the program is typed.
const USAGE: &str =
    "cesca admit|run|busy|room|sheet|step|assemble|draw|print|file|shelve|open|help ..";

/// Fails unless the program refuses these words, for a reason and with the usage.
fn check(words: &[&str], reason: &str, usage: &str) {
    let sandbox = Sandbox::new("usage").with_stored(&["a.bin"]);
    expect_err(sandbox.cesca(words), 2, &format!("cesca: {reason}\nusage: {usage}\n"));
}

#[test]
fn help() {
    let sandbox = Sandbox::new("usage-help");
    let found = sandbox.cesca(&["help"]);
    assert_eq!((found.status, found.err.as_str()), (0, ""));
    let lines: Vec<&str> = found.out.lines().collect();
    for command in COMMANDS {
        assert!(lines.contains(&command), "{command}");
    }
    assert!(lines.iter().all(|line| line.len() <= 80), "{}", found.out);
    for words in [&["--help"][..], &["help", "run"], &["run", "--help"]] {
        expect_out(sandbox.cesca(words), &found.out);
    }
}

#[test]
fn help_tells_limits_and_standard_input() {
    let help = Sandbox::new("usage-told").cesca(&["help"]).out;
    let help = help.split_whitespace().collect::<Vec<_>>().join(" ");
    for told in [
        "With --hz N, the time at this clock is told; N is whole, 1 to 1,000,000.",
        "A line has the address in hexadecimal, how often it executed, and the instruction.",
        "A turn has 1,000 steps at most, or as many as --slice says, 1 to 1,000.",
        "--keys stands behind the FILE that it is for.",
        "as many as --steps says, up to 4,294,967,295; a board that could go on then is spent.",
        "SOURCE may have macros and labels, as in loop: inc R0 and jmp loop.",
        "Numbers are decimal, 0 to 255, or 0x and two hexadecimal digits: 28 is 0x1C too.",
        "- is standard input (not for `cesca step`, which reads its steps there)",
        "for a file that is made, it is standard output.",
        "Every listing has one, admitted or not.",
        "1 if something was refused, 2 if usage or input was wrong.",
    ] {
        assert!(help.contains(told), "{told}");
    }
}

#[test]
fn no_command() {
    check(&[], "a command is missing", USAGE);
}

#[test]
fn other_commands() {
    check(&["mine.bin"], "there is no command mine.bin", USAGE);
    check(&["Admit", "a.bin"], "there is no command Admit", USAGE);
    check(&["--keys", "1"], "there is no command --keys", USAGE);
    check(&[""], "there is no command ", USAGE);
}

#[test]
fn too_few_or_too_many_files() {
    let [admit, run, busy, room, sheet, step, assemble, draw, print, file, shelve, open, _] =
        COMMANDS;
    check(&["admit"], "admit takes FILE..", admit);
    check(&["run"], "run takes FILE", run);
    check(&["run", "--steps", "5"], "run takes FILE", run);
    check(&["run", "a.bin", "a.bin"], "run takes FILE", run);
    check(&["busy"], "busy takes FILE", busy);
    check(&["busy", "a.bin", "page.txt"], "busy takes FILE", busy);
    check(&["room"], "room takes FILE [--keys 1,2,3] ..", room);
    check(&["room", "--slice", "5"], "room takes FILE [--keys 1,2,3] ..", room);
    check(&["sheet"], "sheet takes FILE", sheet);
    check(&["sheet", "a.bin", "a.bin"], "sheet takes FILE", sheet);
    check(&["step"], "step takes FILE", step);
    check(&["step", "a.bin", "5"], "step takes FILE", step);
    check(&["assemble"], "assemble takes SOURCE [BANKS]", assemble);
    check(&["assemble", "a", "b", "c"], "assemble takes SOURCE [BANKS]", assemble);
    check(&["draw"], "draw takes SOURCE|BANKS|FILE [FILE]", draw);
    check(&["draw", "a", "b", "c"], "draw takes SOURCE|BANKS|FILE [FILE]", draw);
    check(&["print"], "print takes BANKS|FILE", print);
    check(&["print", "a.bin", "a.bin"], "print takes BANKS|FILE", print);
    check(&["file", "mine.txt"], "file takes TEXT FILE", file);
    check(&["file", "a", "b", "c"], "file takes TEXT FILE", file);
    check(&["shelve", "a.bin"], "shelve takes FILE SHELF", shelve);
    check(&["shelve", "a", "b", "c"], "shelve takes FILE SHELF", shelve);
    check(&["open", "a.shelf"], "open takes SHELF FILE", open);
    check(&["open", "a", "b", "c"], "open takes SHELF FILE", open);
}

#[test]
fn other_options() {
    let [admit, run, busy, room, sheet, step, assemble, draw, print, file, shelve, open, _] =
        COMMANDS;
    check(&["admit", "--keys", "1", "a.bin"], "admit has no option --keys", admit);
    check(&["run", "a.bin", "--clock", "5"], "run has no option --clock", run);
    check(&["run", "a.bin", "--hz=5"], "run has no option --hz=5", run);
    check(&["run", "a.bin", "-k", "5"], "run has no option -k", run);
    check(&["busy", "a.bin", "--lines", "5"], "busy has no option --lines", busy);
    check(&["room", "a.bin", "--hz", "5"], "room has no option --hz", room);
    check(&["sheet", "--", "a.bin"], "sheet has no option --", sheet);
    check(&["step", "a.bin", "--steps", "5"], "step has no option --steps", step);
    check(&["assemble", "-o", "b", "a"], "assemble has no option -o", assemble);
    check(&["draw", "a", "--needs", "1"], "draw has no option --needs", draw);
    check(&["print", "a.bin", "--hex"], "print has no option --hex", print);
    check(&["file", "a", "b", "--hz", "5"], "file has no option --hz", file);
    check(&["shelve", "-f", "a", "b"], "shelve has no option -f", shelve);
    check(&["open", "a", "b", "--admit"], "open has no option --admit", open);
}

#[test]
fn values_that_are_wrong() {
    let [_, run, busy, room, _, step, ..] = COMMANDS;
    check(&["run", "a.bin", "--steps"], "--steps lacks its value", run);
    for value in ["", "five", "+5", "-5", "0x10", "1,000", "5.0"] {
        let reason = format!("--steps {value:?} is no number");
        check(&["run", "a.bin", "--steps", value], &reason, run);
        let reason = format!("--hz {value:?} is no number");
        check(&["run", "a.bin", "--hz", value], &reason, run);
    }
    for value in ["", "256", "+5", "0x", "0x100", "a"] {
        let reason = format!("{value:?} is no key: 0 to 255 or 0x00 to 0xFF, with commas");
        check(&["run", "a.bin", "--keys", value], &reason, run);
        check(&["step", "a.bin", "--keys", &format!("1,{value},2")], &reason, step);
    }
    check(&["step", "a.bin", "--keys"], "--keys lacks its value", step);
    check(&["busy", "a.bin", "--steps", "all"], "--steps \"all\" is no number", busy);
    check(&["room", "a.bin", "--slice", "1,000"], "--slice \"1,000\" is no number", room);
    check(&["room", "a.bin", "--slice"], "--slice lacks its value", room);
    let reason = "\"x\" is no key: 0 to 255 or 0x00 to 0xFF, with commas";
    check(&["room", "a.bin", "a.bin", "--keys", "1,x"], reason, room);
}

#[test]
fn numbers_of_turns_that_are_over_32_bits() {
    let [_, _, _, room, ..] = COMMANDS;
    for number in ["4294967296", "99999999999999999999999"] {
        for option in ["--slice", "--steps"] {
            let reason = format!("{option}: {number} is over 4294967295");
            check(&["room", "a.bin", option, number], &reason, room);
        }
    }
}

#[test]
fn options_that_are_given_twice() {
    let [_, run, _, room, ..] = COMMANDS;
    let twice = ["run", "--hz", "5", "a.bin", "--hz", "5"];
    check(&twice, "--hz is given twice", run);
    let twice = "--keys is given twice";
    check(&["run", "--keys", "1", "a.bin", "--keys", "2"], twice, run);
    check(&["run", "a.bin", "--keys", "1", "--keys", "1"], twice, run);
    check(&["run", "--keys", "1", "--keys", "2"], twice, run);
    check(&["room", "--keys", "1", "a.bin", "--keys", "2"], twice, room);
    check(&["room", "--keys", "1", "a.bin", "--keys", "2", "a.bin"], twice, room);
    check(&["room", "a.bin", "a.bin", "--keys", "1", "--slice", "5", "--keys", "2"], twice, room);
    let slice = ["room", "--slice", "5", "a.bin", "--slice", "6"];
    check(&slice, "--slice is given twice", room);
}

#[test]
fn keys_before_several_files() {
    let [_, _, _, room, ..] = COMMANDS;
    let before = "--keys must stand behind the FILE that it is for";
    check(&["room", "--keys", "1", "a.bin", "a.bin"], before, room);
    check(&["room", "--keys", "1", "a.bin", "a.bin", "--keys", "2"], before, room);
}
