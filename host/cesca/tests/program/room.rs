//! `cesca room`.

use crate::sandbox::{expect_err, expect_out, stored, Sandbox, CHATTER, ECHO, ENDLESS};

/// These lines.
fn shown(lines: &[&str]) -> String {
    lines.iter().map(|line| format!("{line}\n")).collect()
}

#[test]
fn eight_stored_listings() {
    let names = ["a.bin", "countdown.bin", "fibonacci.bin", "multiply.bin"];
    let others = ["nested.bin", "max.bin", "pushes.bin", "delay.bin"];
    let sandbox = Sandbox::new("room-stored").with_stored(&names).with_stored(&others);
    let out = shown(&[
        "seat  name           need  stop     steps  cycles  out  roll",
        "   0  a.bin             2  halted       8      31    6",
        "   1  countdown.bin     0  halted      33     108    0",
        "   2  fibonacci.bin     0  halted      77     267  233",
        "   3  multiply.bin      2  halted      47     162   42",
        "   4  nested.bin        4  halted      19      83   70",
        "   5  max.bin           1  halted       8      27  100",
        "   6  pushes.bin      255  halted     256    1277    0",
        "   7  delay.bin         2  halted  101403  355808    0",
    ]);
    let words = [&["room"], &names[..], &others].concat();
    expect_out(sandbox.cesca(&words), &out);
    for slice in ["1", "7", "999", "1000"] {
        expect_out(sandbox.cesca(&[&words[..], &["--slice", slice]].concat()), &out);
    }
}

#[test]
fn turns_go_round_until_the_steps_are_made() {
    let sandbox = Sandbox::new("room-turns").with_stored(&["a.bin", "countdown.bin"]);
    let heading = "seat  name           need  stop    steps  cycles  out  roll";
    // Turns of 3, 3, 3 and 1: listing A's mov, call, push, add, pop and ret have 3 + 6 + 5 + 4 + 4
    // + 4 cycles, the count of 10, its display, dec and jnz 3 + 3 + 4 + 3.
    let spent = [
        "seat  name           need  stop   steps  cycles  out  roll",
        "   0  a.bin             2  spent      6      26    0",
        "   1  countdown.bin     0  spent      4      13   10",
    ];
    // Turns of 3, 3, 3, 3 and 1; A has shown its 6 in 3 cycles, the other its 9.
    let shorter = [
        "seat  name           need  stop   steps  cycles  out  roll",
        "   0  a.bin             2  spent      7      29    6",
        "   1  countdown.bin     0  spent      6      20    9",
    ];
    // The fifth turn has 2 steps, and the second of them halts A, in 2 cycles.
    let halted = [
        heading,
        "   0  a.bin             2  halted      8      31    6",
        "   1  countdown.bin     0  spent       6      20    9",
    ];
    // From then on all turns are the other's.
    let later = [
        heading,
        "   0  a.bin             2  halted      8      31    6",
        "   1  countdown.bin     0  spent      32     106    0",
    ];
    let room = |steps| ["room", "a.bin", "countdown.bin", "--slice", "3", "--steps", steps];
    for (steps, lines) in [("10", spent), ("13", shorter), ("14", halted), ("40", later)] {
        expect_out(sandbox.cesca(&room(steps)), &shown(&lines));
    }
}

#[test]
fn without_a_step_all_could_go_on() {
    let sandbox = Sandbox::new("room-none").with_stored(&["a.bin", "max.bin"]);
    let out = shown(&[
        "seat  name     need  stop   steps  cycles  out  roll",
        "   0  a.bin       2  spent      0       0    0",
        "   1  max.bin     1  spent      0       0    0",
    ]);
    expect_out(sandbox.cesca(&["room", "--steps", "0", "a.bin", "max.bin"]), &out);
}

#[test]
fn keys_stand_behind_their_file() {
    let sandbox = Sandbox::new("room-keys").with_listing("echo.bin", ECHO);
    let out = shown(&[
        "seat  name      need  stop    steps  cycles  out  roll",
        "   0  echo.bin     0  halted     24      75    0  [38][01]Hi!",
        "   1  echo.bin     0  halted      6      18    0  [38][01]",
        "   2  echo.bin     0  halted     18      56    0  [38][01] \\x5B",
    ]);
    let first = ["room", "echo.bin", "--keys", "72,0x69,33", "echo.bin"];
    let third = ["--slice", "4", "echo.bin", "--keys", "32,91,0,65"];
    expect_out(sandbox.cesca(&[&first[..], &third].concat()), &out);
}

#[test]
fn one_file_has_its_keys_anywhere() {
    let sandbox = Sandbox::new("room-one").with_listing("echo.bin", ECHO);
    let out = shown(&[
        "seat  name      need  stop    steps  cycles  out  roll",
        "   0  echo.bin     0  halted     12      37    0  [38][01]H",
    ]);
    expect_out(sandbox.cesca(&["room", "--keys", "72", "echo.bin"]), &out);
    expect_out(sandbox.cesca(&["room", "echo.bin", "--keys", "72"]), &out);
    let standard = shown(&[
        "seat  name  need  stop    steps  cycles  out  roll",
        "   0  -        0  halted     12      37    0  [38][01]H",
    ]);
    let found = sandbox.cesca_given(&["room", "-", "--keys", "72"], sandbox.read("echo.bin"));
    expect_out(found, &standard);
}

#[test]
fn more_steps_than_a_run_may_have() {
    let sandbox = Sandbox::new("room-steps").with_stored(&["a.bin"]);
    let sandbox = sandbox.with_listing("endless.bin", ENDLESS);
    // Listing A makes 8 of the steps.
    let out = shown(&[
        "seat  name         need  stop      steps   cycles  out  roll",
        "   0  endless.bin     0  spent   2999992  8999976    0",
        "   1  a.bin           2  halted        8       31    6",
    ]);
    let room = ["room", "endless.bin", "a.bin", "--steps", "3000000"];
    expect_out(sandbox.cesca(&room), &out);
    let most = shown(&[
        "seat  name         need  stop    steps   cycles  out  roll",
        "   0  endless.bin     0  spent  500000  1500000    0",
        "   1  endless.bin     0  spent  500000  1500000    0",
    ]);
    expect_out(sandbox.cesca(&["room", "endless.bin", "endless.bin"]), &most);
}

#[test]
fn a_roll_is_full_after_a_million_words_at_the_earliest() {
    let sandbox = Sandbox::new("room-roll").with_listing("chatter.bin", CHATTER);
    let (some, all) = ("A".repeat(2_001), "A".repeat(1_000_000));
    let out = shown(&[
        "seat  name         need  stop   steps  cycles  out  roll",
        &format!("   0  chatter.bin     0  spent   4001   12003    0  {some}"),
    ]);
    expect_out(sandbox.cesca(&["room", "chatter.bin", "--steps", "4001"]), &out);
    let out = shown(&[
        "seat  name         need  stop    steps   cycles  out  roll",
        &format!("   0  chatter.bin     0  full  2000000  6000000    0  {all}"),
    ]);
    for steps in ["2000000", "2000001", "9000000"] {
        expect_out(sandbox.cesca(&["room", "chatter.bin", "--steps", steps]), &out);
    }
}

/// Checks that a line tells of a listing what a run of as many steps with the same keys does.
fn check_line(sandbox: &Sandbox, line: &str, name: &str, keys: &str) {
    let cells: Vec<&str> = line.split_whitespace().collect();
    let [_, shown, _, stop, steps, cycles, out, ref roll @ ..] = cells[..] else {
        panic!("{line}")
    };
    assert_eq!(shown, name, "{line}");
    let roll: String = roll.iter().map(|roll| format!(" {roll}")).collect();
    let report = format!("stop: {stop}\nsteps: {steps}\ncycles: {cycles}\nout: {out}\n");
    let run = sandbox.cesca(&["run", name, "--keys", keys, "--steps", steps]);
    expect_out(run, &format!("{report}roll:{roll}\n"));
}

#[test]
fn a_line_tells_what_a_run_of_so_many_steps_does() {
    let names = ["a.bin", "countdown.bin", "fibonacci.bin", "multiply.bin", "nested.bin"];
    let sandbox = Sandbox::new("room-runs").with_stored(&names).with_listing("echo.bin", ECHO);
    let seats = names.map(|name| (name, "0")).into_iter();
    let seats: Vec<_> = seats.chain([("echo.bin", "72,105,33"), ("echo.bin", "91")]).collect();
    let files = seats.iter().flat_map(|(name, keys)| [*name, "--keys", *keys]);
    let files: Vec<&str> = files.collect();
    let mut whole = 0;
    for steps in ["1", "20", "77", "150", "1000"] {
        let words = [&["room", "--slice", "7", "--steps", steps], &files[..]].concat();
        let found = sandbox.cesca(&words);
        assert_eq!((found.status, found.err.as_str()), (0, ""));
        let lines: Vec<&str> = found.out.lines().skip(1).collect();
        assert_eq!(lines.len(), seats.len(), "{}", found.out);
        for ((name, keys), line) in seats.iter().zip(lines) {
            check_line(&sandbox, line, name, keys);
        }
        whole += found.out.matches("  [38][01]Hi!\n").count();
    }
    assert_eq!(whole, 2, "with 150 and 1,000 steps");
}

#[test]
fn a_refused_listing_has_no_seat() {
    let sandbox = Sandbox::new("room-refused").with_stored(&["a.bin", "understated.bin"]);
    let sandbox = sandbox.with("short.bin", "");
    let call = "refused 15 at 5: the call needs 2 bytes where routine 1 has 1 left";
    let found = sandbox.cesca(&["room", "a.bin", "understated.bin", "short.bin"]);
    expect_err(found, 1, &format!("understated.bin: {call}\n"));
    let short = "refused 1 at 0: there are 0 opcodes and 0 arguments, not 256 of each";
    expect_err(sandbox.cesca(&["room", "short.bin", "a.bin"]), 1, &format!("short.bin: {short}\n"));
}

#[test]
fn a_ninth_file_has_no_seat() {
    let sandbox = Sandbox::new("room-ninth").with_stored(&["a.bin", "max.bin", "masked.bin"]);
    // Whatever is in it, and whether it is there at all.
    for ninth in ["max.bin", "masked.bin", "none.bin", "."] {
        let words = [&["room"], &["a.bin"; 8][..], &[ninth, "a.bin"]].concat();
        let taken = format!("{ninth}: refused 28: all 8 seats of the room are taken\n");
        expect_err(sandbox.cesca(&words), 1, &taken);
    }
    let eight = sandbox.cesca(&[&["room"], &["a.bin"; 8][..]].concat());
    assert_eq!((eight.status, eight.out.lines().count()), (0, 9));
}

#[test]
fn refused_slices() {
    let sandbox = Sandbox::new("room-slices").with_stored(&["a.bin"]);
    for slice in ["0", "1001", "4294967295"] {
        let refused = format!("--slice: refused 29: the slice is {slice} steps, not 1 to 1,000\n");
        expect_err(sandbox.cesca(&["room", "a.bin", "--slice", slice]), 1, &refused);
        for steps in ["0", "5"] {
            let words = ["room", "a.bin", "--steps", steps, "--slice", slice];
            expect_err(sandbox.cesca(&words), 1, &refused);
        }
    }
}

#[test]
fn files_that_cannot_be_read() {
    let sandbox = Sandbox::new("room-missing").with_stored(&["a.bin"]);
    let missing = "mine.bin: No such file or directory\n";
    expect_err(sandbox.cesca(&["room", "a.bin", "mine.bin", "--steps", "5"]), 2, missing);
    expect_err(sandbox.cesca(&["room", "."]), 2, ".: Is a directory\n");
    // Standard input is read once.
    let empty = "-: refused 1 at 0: there are 0 opcodes and 0 arguments, not 256 of each\n";
    expect_err(sandbox.cesca_given(&["room", "-", "-"], stored("a.bin")), 1, empty);
}
