//! `cesca run`.

use crate::sandbox::{expect_err, expect_out, stored, Sandbox, CHATTER, ECHO};

#[test]
fn listing_a() {
    let sandbox = Sandbox::new("run-a").with_stored(&["a.bin"]);
    let out = "stop: halted\nsteps: 8\ncycles: 31\nout: 6\nroll:\n";
    expect_out(sandbox.cesca(&["run", "a.bin"]), out);
    expect_out(sandbox.cesca_given(&["run", "-"], stored("a.bin")), out);
}

#[test]
fn the_stored_listings() {
    for (name, steps, cycles, out) in [
        ("countdown.bin", 33, 108, 0),
        ("fibonacci.bin", 77, 267, 233),
        ("multiply.bin", 47, 162, 42),
        ("nested.bin", 19, 83, 70),
        ("max.bin", 8, 27, 100),
        ("pushes.bin", 256, 1277, 0),
        ("delay.bin", 101_403, 355_808, 0),
    ] {
        let sandbox = Sandbox::new("run-stored").with_stored(&[name]);
        let out = format!("stop: halted\nsteps: {steps}\ncycles: {cycles}\nout: {out}\nroll:\n");
        expect_out(sandbox.cesca(&["run", name]), &out);
    }
}

#[test]
fn times() {
    let sandbox = Sandbox::new("run-times").with_stored(&["a.bin", "delay.bin"]);
    // 31 cycles; at 620 Hz just half a tenth, which goes up.
    for (hz, time) in [
        ("1", "31.0"),
        ("10", "3.1"),
        ("100", "0.3"),
        ("620", "0.1"),
        ("621", "0.0"),
        ("1000000", "0.0"),
    ] {
        let out = format!("stop: halted\nsteps: 8\ncycles: 31\ntime: {time} s\nout: 6\nroll:\n");
        expect_out(sandbox.cesca(&["run", "a.bin", "--hz", hz]), &out);
    }
    let out = "stop: halted\nsteps: 101403\ncycles: 355808\ntime: 3558.1 s\nout: 0\nroll:\n";
    expect_out(sandbox.cesca(&["run", "--hz", "100", "delay.bin"]), out);
}

#[test]
fn budgets() {
    let sandbox = Sandbox::new("run-budgets").with_stored(&["a.bin", "delay.bin"]);
    let spent = |steps: u32, cycles: u32, out: u8| {
        format!("stop: spent\nsteps: {steps}\ncycles: {cycles}\nout: {out}\nroll:\n")
    };
    for (steps, shown) in [
        ("0", spent(0, 0, 0)),
        ("1", spent(1, 3, 0)),
        ("2", spent(2, 9, 0)),
        // mov, call, push, add, pop, ret and mov OUT: 3 + 6 + 5 + 4 + 4 + 4 + 3 cycles.
        ("7", spent(7, 29, 6)),
    ] {
        expect_out(sandbox.cesca(&["run", "a.bin", "--steps", steps]), &shown);
    }
    expect_out(sandbox.cesca(&["run", "delay.bin", "--steps", "1000"]), &spent(1_000, 3_508, 0));
    let halted = "stop: halted\nsteps: 8\ncycles: 31\nout: 6\nroll:\n";
    expect_out(sandbox.cesca(&["run", "a.bin", "--steps", "8"]), halted);
    expect_out(sandbox.cesca(&["run", "a.bin", "--steps", "1000000"]), halted);
}

#[test]
fn keys_and_roll() {
    let sandbox = Sandbox::new("run-keys").with_listing("echo.bin", ECHO);
    let shown = |steps: u32, cycles: u32, roll: &str| {
        format!("stop: halted\nsteps: {steps}\ncycles: {cycles}\nout: 0\nroll: [38][01]{roll}\n")
    };
    expect_out(sandbox.cesca(&["run", "echo.bin"]), &shown(6, 18, ""));
    let typed = sandbox.cesca(&["run", "echo.bin", "--keys", "72,0x69,33"]);
    expect_out(typed, &shown(24, 75, "Hi!"));
    let typed = sandbox.cesca(&["run", "--keys", "91,92,7,255,93,0,65", "echo.bin"]);
    expect_out(typed, &shown(36, 113, "\\x5B\\x5C\\x07\\xFF]"));
}

#[test]
fn a_roll_is_never_full() {
    let sandbox = Sandbox::new("run-roll").with_listing("chatter.bin", CHATTER);
    let roll = "A".repeat(2_001);
    let out = format!("stop: spent\nsteps: 4001\ncycles: 12003\nout: 0\nroll: {roll}\n");
    expect_out(sandbox.cesca(&["run", "chatter.bin", "--steps", "4001"]), &out);
}

#[test]
fn a_refused_listing_is_not_run() {
    let sandbox =
        Sandbox::new("run-refused").with_stored(&["understated.bin"]).with("short.bin", "");
    let call = "refused 15 at 5: the call needs 2 bytes where routine 1 has 1 left";
    let found = sandbox.cesca(&["run", "understated.bin"]);
    expect_err(found, 1, &format!("understated.bin: {call}\n"));
    let short = "refused 1 at 0: there are 0 opcodes and 0 arguments, not 256 of each";
    expect_err(sandbox.cesca(&["run", "short.bin"]), 1, &format!("short.bin: {short}\n"));
}

#[test]
fn refused_calls() {
    let sandbox = Sandbox::new("run-calls").with_stored(&["a.bin"]);
    let budget = "a.bin: refused 19: the budget is over 1,000,000 steps\n";
    for steps in ["1000001", "2000000", "4294967295", "4294967296", "99999999999999999999999"] {
        expect_err(sandbox.cesca(&["run", "a.bin", "--steps", steps]), 1, budget);
    }
    let clock = "a.bin: refused 20: the clock is 0 or over 1,000,000 Hz\n";
    for hz in ["0", "1000001", "4294967296"] {
        expect_err(sandbox.cesca(&["run", "a.bin", "--hz", hz]), 1, clock);
    }
    expect_err(sandbox.cesca(&["run", "a.bin", "--hz", "0", "--steps", "1000001"]), 1, budget);
}

#[test]
fn a_file_that_is_not_there() {
    let sandbox = Sandbox::new("run-missing");
    let missing = "mine.bin: No such file or directory\n";
    expect_err(sandbox.cesca(&["run", "mine.bin", "--steps", "5"]), 2, missing);
}
