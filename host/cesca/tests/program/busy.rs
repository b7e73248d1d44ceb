//! `cesca busy`.

use crate::sandbox::{expect_err, expect_out, stored, Sandbox, ENDLESS};

/// Shows the keys on the LCD up to a key 0.
const ECHO: &str = "
    routine 0 at 0 need 0

    0  8000  40 00  mov R0, IN
    1  8000  24 00  cmp R0, 0
    2  8000  B0 06  jz 6
    3  8000  E8 00  mov LCD, R0
    4  8000  50 00  mov IN, Ack
    5  8000  A0 00  jmp 0
    6  8000  F8 00  hlt
";

/// What is shown of a run that wrote nothing to the roll: stop, steps, cycles and OUT, and these
/// lines of the page, spaces filling them up to 34 columns.
fn shown(stop: &str, numbers: [u32; 3], page: &[&str]) -> String {
    let [steps, cycles, out] = numbers;
    let report = format!("stop: {stop}\nsteps: {steps}\ncycles: {cycles}\nout: {out}\nroll:\n");
    report + &filled(page)
}

/// An empty line and the lines of a page, spaces filling them up to 34 columns.
fn filled(page: &[&str]) -> String {
    let lines = page.iter().map(|line| format!("{line:<34}\n"));
    "\n".to_string() + &lines.collect::<String>()
}

#[test]
fn the_loop_of_multiply_comes_first() {
    let sandbox = Sandbox::new("busy-multiply").with_stored(&["multiply.bin"]);
    // Seven rounds, and an eighth time the comparison and the jump that ends them.
    let page = [
        "07       8 cmp R1, 0",
        "08       8 jz 12",
        "09       7 add R2, R2, R0",
        "0A       7 add R1, R1, 255",
        "0B       7 jmp 7",
        "00       1 mov R0, 6",
        "01       1 mov R1, 7",
        "02       1 call 5",
        "03       1 mov OUT, R0",
        "04       1 hlt",
        "05       1 push R2",
        "06       1 mov R2, 0",
        "0C       1 mov R0, R2",
        "0D       1 pop R2",
        "0E       1 ret",
    ];
    let out = shown("halted", [47, 162, 42], &page);
    expect_out(sandbox.cesca(&["busy", "multiply.bin"]), &out);
    expect_out(sandbox.cesca_given(&["busy", "-"], stored("multiply.bin")), &out);
}

#[test]
fn keys_roll_and_time() {
    let sandbox = Sandbox::new("busy-keys").with_listing("echo.bin", ECHO);
    // Three rounds of 4 + 3 + 3 + 3 + 3 + 3 cycles, and 4 + 3 + 3 + 2 at the end.
    let report = "stop: halted\nsteps: 22\ncycles: 69\ntime: 6.9 s\nout: 0\nroll: Hi!\n";
    let page = [
        "00       4 mov R0, IN",
        "01       4 cmp R0, 0",
        "02       4 jz 6",
        "03       3 mov LCD, R0",
        "04       3 mov IN, Ack",
        "05       3 jmp 0",
        "06       1 hlt",
    ];
    let typed = sandbox.cesca(&["busy", "echo.bin", "--keys", "72,0x69,33", "--hz", "10"]);
    expect_out(typed, &(report.to_string() + &filled(&page)));
    let page = ["00       1 mov R0, IN", "01       1 cmp R0, 0"];
    let typed = sandbox.cesca(&["busy", "echo.bin", "--keys", "72", "--steps", "2"]);
    expect_out(typed, &shown("spent", [2, 7, 0], &page));
}

#[test]
fn the_most_steps_fill_their_columns() {
    let sandbox = Sandbox::new("busy-endless").with_listing("endless.bin", ENDLESS);
    let out = shown("spent", [1_000_000, 3_000_000, 0], &["00 1000000 jmp 0"]);
    expect_out(sandbox.cesca(&["busy", "endless.bin"]), &out);
}

#[test]
fn without_a_step_there_is_no_page() {
    let sandbox = Sandbox::new("busy-none").with_stored(&["a.bin"]);
    let out = "stop: spent\nsteps: 0\ncycles: 0\nout: 0\nroll:\n";
    expect_out(sandbox.cesca(&["busy", "a.bin", "--steps", "0"]), out);
}

#[test]
fn the_report_is_that_of_a_run() {
    let names = ["a.bin", "countdown.bin", "fibonacci.bin", "nested.bin", "max.bin", "pushes.bin"];
    let sandbox = Sandbox::new("busy-stored").with_stored(&names);
    for name in names {
        let [run, busy] = ["run", "busy"].map(|command| {
            sandbox.cesca(&[command, name, "--keys", "9,8", "--steps", "50", "--hz", "3"])
        });
        let (report, page) = busy.out.split_once("\n\n").expect("an empty line");
        assert_eq!((report.to_string() + "\n", busy.status), (run.out, 0), "{name}");
        assert!(page.lines().all(|line| line.len() == 34), "{name}");
    }
}

#[test]
fn what_is_not_run_has_no_page() {
    let sandbox = Sandbox::new("busy-refused").with_stored(&["a.bin", "understated.bin"]);
    let call = "refused 15 at 5: the call needs 2 bytes where routine 1 has 1 left";
    let found = sandbox.cesca(&["busy", "understated.bin"]);
    expect_err(found, 1, &format!("understated.bin: {call}\n"));
    let budget = "a.bin: refused 19: the budget is over 1,000,000 steps\n";
    expect_err(sandbox.cesca(&["busy", "a.bin", "--steps", "1000001"]), 1, budget);
    let clock = "a.bin: refused 20: the clock is 0 or over 1,000,000 Hz\n";
    expect_err(sandbox.cesca(&["busy", "a.bin", "--hz", "0"]), 1, clock);
    let missing = "mine.bin: No such file or directory\n";
    expect_err(sandbox.cesca(&["busy", "mine.bin"]), 2, missing);
}
