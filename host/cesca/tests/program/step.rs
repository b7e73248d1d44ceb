//! `cesca step`.

use crate::sandbox::{expect_err, expect_out, ran, Ran, Sandbox};
use std::fs::File;

/// The states before each step of listing A.
const A: [&str; 8] = [
    "0: mov R0, 5
  R0 0  R1 0  R2 0  R3 0  PC 0  SP 255  OUT 0  Z 0  C 0  V -  S 0
",
    "1: call 4
  R0 5  R1 0  R2 0  R3 0  PC 1  SP 255  OUT 0  Z 0  C 0  V -  S 0
",
    "4: push R2
  R0 5  R1 0  R2 0  R3 0  PC 4  SP 254  OUT 0  Z 0  C 0  V -  S 0
  stack: return to 2
",
    "5: add R0, R0, 1
  R0 5  R1 0  R2 0  R3 0  PC 5  SP 253  OUT 0  Z 0  C 0  V -  S 0
  stack: 0 of routine 1
  stack: return to 2
",
    "6: pop R2
  R0 6  R1 0  R2 0  R3 0  PC 6  SP 253  OUT 0  Z 0  C 0  V 0  S 0
  stack: 0 of routine 1
  stack: return to 2
",
    "7: ret
  R0 6  R1 0  R2 0  R3 0  PC 7  SP 254  OUT 0  Z 0  C 0  V 0  S 0
  stack: return to 2
",
    "2: mov OUT, R0
  R0 6  R1 0  R2 0  R3 0  PC 2  SP 255  OUT 0  Z 0  C 0  V 0  S 0
",
    "3: hlt
  R0 6  R1 0  R2 0  R3 0  PC 3  SP 255  OUT 6  Z 0  C 0  V 0  S 0
",
];

/// The first seven states of `nested.bin`, whose routine 1 pushes 7 and calls routine 2, which
/// calls routine 3.
const NESTED: &str = "\
0: mov R0, 7
  R0 0  R1 0  R2 0  R3 0  PC 0  SP 255  OUT 0  Z 0  C 0  V -  S 0
1: call 4
  R0 7  R1 0  R2 0  R3 0  PC 1  SP 255  OUT 0  Z 0  C 0  V -  S 0
4: push R0
  R0 7  R1 0  R2 0  R3 0  PC 4  SP 254  OUT 0  Z 0  C 0  V -  S 0
  stack: return to 2
5: call 10
  R0 7  R1 0  R2 0  R3 0  PC 5  SP 253  OUT 0  Z 0  C 0  V -  S 0
  stack: 7 of routine 1
  stack: return to 2
10: call 13
  R0 7  R1 0  R2 0  R3 0  PC 10  SP 252  OUT 0  Z 0  C 0  V -  S 0
  stack: return to 6
  stack: 7 of routine 1
  stack: return to 2
13: add R0, R0, R0
  R0 7  R1 0  R2 0  R3 0  PC 13  SP 251  OUT 0  Z 0  C 0  V -  S 0
  stack: return to 11
  stack: return to 6
  stack: 7 of routine 1
  stack: return to 2
14: ret
  R0 14  R1 0  R2 0  R3 0  PC 14  SP 251  OUT 0  Z 0  C 0  V 0  S 0
  stack: return to 11
  stack: return to 6
  stack: 7 of routine 1
  stack: return to 2
";

/// Sets each flag: 127 + 1 is 128, 128 + 128 is 0, and a mask unsettles V.
const FLAGS: &str = "
    routine 0 at 0 need 0

    0  8000  3C 7F  mov R3, 127
    1  8000  1F 01  add R3, R3, 1
    2  C000  1F 80  add R3, R3, 128
    3  C000  2B FF  mask R3, 255
    4  8000  F8 00  hlt
";

/// Takes a key into R2 and goes on to the next, for ever.
const KEYS: &str = "
    routine 0 at 0 need 0

    0  8000  48 00  mov R2, IN
    1  8000  50 00  mov IN, Ack
    2  8000  A0 00  jmp 0
";

#[test]
fn an_empty_line_makes_a_step() {
    let sandbox = Sandbox::new("step-lines").with_stored(&["a.bin"]);
    let out = A.concat() + "stop: halted\n";
    expect_out(sandbox.cesca_given(&["step", "a.bin"], "\n".repeat(8)), &out);
    expect_out(sandbox.cesca_given(&["step", "a.bin"], "\n".repeat(100)), &out);
    expect_out(sandbox.cesca_given(&["step", "a.bin"], "\n\n"), &A[..3].concat());
    expect_out(sandbox.cesca_given(&["step", "a.bin"], " \r\n"), &A[..2].concat());
}

#[test]
fn a_number_makes_that_many() {
    let sandbox = Sandbox::new("step-numbers").with_stored(&["a.bin"]);
    let out = A.concat() + "stop: halted\n";
    for input in ["8\n", "1\n\n2\n4\n", "3\n5", "99999999999999999999\n"] {
        expect_out(sandbox.cesca_given(&["step", "a.bin"], input), &out);
    }
    expect_out(sandbox.cesca_given(&["step", "a.bin"], "7\n"), &A.concat());
    expect_out(sandbox.cesca_given(&["step", "a.bin"], "0\n"), &[A[0], A[0]].concat());
}

#[test]
fn q_or_the_end_of_the_input_ends_it() {
    let sandbox = Sandbox::new("step-end").with_stored(&["a.bin"]);
    expect_out(sandbox.cesca_given(&["step", "a.bin"], ""), A[0]);
    expect_out(sandbox.cesca_given(&["step", "a.bin"], "q\n\n\n"), A[0]);
    expect_out(sandbox.cesca_given(&["step", "a.bin"], "2\nq"), &A[..3].concat());
}

#[test]
fn another_line_makes_no_step() {
    let sandbox = Sandbox::new("step-unknown").with_stored(&["a.bin"]);
    let found = sandbox.cesca_given(&["step", "a.bin"], b"back\n\xFF\n-1\n\n");
    let wrong = "is no number of steps: an empty line makes one, q ends\n";
    let wanted = Ran {
        status: 2,
        out: [A[0], A[0], A[0], A[0], A[1]].concat(),
        err: ["back", "\u{FFFD}", "-1"].map(|line| format!("{line:?} {wrong}")).concat(),
    };
    assert_eq!(found, wanted);
}

#[test]
fn a_line_that_is_too_long_ends_it() {
    let sandbox = Sandbox::new("step-long").with_stored(&["a.bin"]);
    let wanted = |out: &str| Ran {
        status: 2,
        out: out.to_string(),
        err: "-: a line of over 4,096 bytes is no number of steps\n".to_string(),
    };
    let found = sandbox.cesca_given(&["step", "a.bin"], format!("\n{}\n\n", "1".repeat(4_097)));
    assert_eq!(found, wanted(&A[..2].concat()));
    let zeros = File::open("/dev/zero").expect("a device");
    let output = sandbox.command(&["step", "a.bin"]).stdin(zeros).output();
    assert_eq!(ran(output.expect("the program starts")), wanted(A[0]));
    let most = format!("{}1\nq\n", "0".repeat(4_095));
    expect_out(sandbox.cesca_given(&["step", "a.bin"], most), &A[..2].concat());
}

#[test]
fn the_stack_of_calls_in_calls() {
    let sandbox = Sandbox::new("step-nested").with_stored(&["nested.bin"]);
    expect_out(sandbox.cesca_given(&["step", "nested.bin"], "6\nq\n"), NESTED);
}

#[test]
fn flags() {
    let sandbox = Sandbox::new("step-flags").with_listing("flags.bin", FLAGS);
    let out = "\
0: mov R3, 127
  R0 0  R1 0  R2 0  R3 0  PC 0  SP 255  OUT 0  Z 0  C 0  V -  S 0
1: add R3, R3, 1
  R0 0  R1 0  R2 0  R3 127  PC 1  SP 255  OUT 0  Z 0  C 0  V -  S 0
2: add R3, R3, 128
  R0 0  R1 0  R2 0  R3 128  PC 2  SP 255  OUT 0  Z 0  C 0  V 1  S 1
3: mask R3, 255
  R0 0  R1 0  R2 0  R3 0  PC 3  SP 255  OUT 0  Z 1  C 1  V 1  S 0
4: hlt
  R0 0  R1 0  R2 0  R3 0  PC 4  SP 255  OUT 0  Z 1  C 0  V -  S 0
stop: halted
";
    expect_out(sandbox.cesca_given(&["step", "flags.bin"], "5\n"), out);
}

#[test]
fn keys() {
    let sandbox = Sandbox::new("step-keys").with_listing("keys.bin", KEYS);
    let out = "\
0: mov R2, IN
  R0 0  R1 0  R2 0  R3 0  PC 0  SP 255  OUT 0  Z 0  C 0  V -  S 0
1: mov IN, Ack
  R0 0  R1 0  R2 7  R3 0  PC 1  SP 255  OUT 0  Z 0  C 0  V -  S 0
2: jmp 0
  R0 0  R1 0  R2 7  R3 0  PC 2  SP 255  OUT 0  Z 0  C 0  V -  S 0
0: mov R2, IN
  R0 0  R1 0  R2 7  R3 0  PC 0  SP 255  OUT 0  Z 0  C 0  V -  S 0
1: mov IN, Ack
  R0 0  R1 0  R2 255  R3 0  PC 1  SP 255  OUT 0  Z 0  C 0  V -  S 0
";
    expect_out(sandbox.cesca_given(&["step", "keys.bin", "--keys", "7,0xFF"], "4\n"), out);
}

#[test]
fn a_refused_listing_is_not_stepped_through() {
    let sandbox = Sandbox::new("step-refused").with_stored(&["pops-return.bin"]);
    let refused = "refused 11 at 3: pop at depth 0 would take the return address";
    let found = sandbox.cesca_given(&["step", "pops-return.bin"], "\n");
    expect_err(found, 1, &format!("pops-return.bin: {refused}\n"));
}

#[test]
fn files_that_cannot_be_read() {
    let sandbox = Sandbox::new("step-missing").with_stored(&["a.bin"]);
    let missing = "mine.bin: No such file or directory\n";
    expect_err(sandbox.cesca_given(&["step", "mine.bin"], "\n"), 2, missing);
    let standard = "-: the listing can't be read from standard input, which has the steps\n";
    expect_err(sandbox.cesca_given(&["step", "-"], "\n"), 2, standard);
}
