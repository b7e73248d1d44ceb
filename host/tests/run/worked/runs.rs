//! The table of runs.

use super::row::{at, at_key, halted, with, Row};

/// All rows.
pub fn rows() -> Vec<Row> {
    [computing(), moving(), calling(), stopping(), refusing()].into_iter().flatten().collect()
}

/// Listing A, and instructions that compute.
fn computing() -> Vec<Row> {
    vec![
        // mov R0, 5; call 4; mov OUT, R0; hlt; push R2; add R0, R0, 1; pop R2; ret
        Row::new("listing A", "3005 A804 F000 F800 5E00 1001 8800 AC00"),
        // mov R0, 127; add R1, R0, 1; hlt
        Row::new("add overflows", "307F 1401 F800"),
        // mov R1, 1; sub R2, R0, R1; hlt
        Row::new("sub borrows", "3401 0821 F800"),
        // mov R1, 1; sub NONE, R0, R1; hlt
        Row::new("sub to NONE", "3401 2021 F800"),
        // add R0, R0, 0; mask R0, 0xF0; hlt
        Row { start: with(15, 255), ..Row::new("mask unsettles V", "1000 28F0 F800") },
        // mask IN, 0x80; hlt
        Row { keys: &[0x81], ..Row::new("mask IN", "2C80 F800") },
    ]
}

/// Keys, the data bank and the stack bank.
fn moving() -> Vec<Row> {
    vec![
        // mov R0, IN; mov IN, Ack; mov R1, IN; mov IN, Ack; mov R2, IN; mov IN, Ack; hlt
        Row { keys: &[7, 9], ..Row::new("keys and Ack", "4000 5000 4400 5000 4800 5000 F800") },
        // mov R1, 16; mov R2, 77; mov [R1], R2; mov R3, [16]; mov R0, [R1]; mov [17], R0;
        // mov OUT, [17]; hlt
        Row::new("data bank", "3410 384D 5A01 6C10 7100 5411 F411 F800"),
        // push R0; hlt
        Row { start: with(9, 0), ..Row::new("push at SP 0", "5C00 F800") },
        // pop R0; hlt
        Row::new("pop at SP 255", "8000 F800"),
        // push R0; pop R1; hlt
        Row { start: with(9, 0), ..Row::new("SP there and back", "5C00 8400 F800") },
        // mov R0, 1; mov R1, 2; push R0; swap R2, R1; pop R3; hlt
        Row::new("swap", "3001 3402 5C00 9900 8C00 F800"),
    ]
}

/// Calls and jumps, and addresses that go round.
fn calling() -> Vec<Row> {
    vec![
        // call 4; mov R1, 6; jmp R1; hlt; mov R0, 3; ret; jmp 8; nop; hlt
        Row::new("calls and jumps", "A804 3406 A500 F800 3003 AC00 A008 FC00 F800"),
        // nop; hlt
        Row { at: 255, start: at(255), ..Row::new("PC from 255 to 0", "FC00 F800") },
        // call 0; hlt
        Row { at: 255, start: at(255), ..Row::new("call at 255", "A800 F800") },
    ]
}

/// The roll, the four stops, and a halted state run again.
fn stopping() -> Vec<Row> {
    vec![
        // mov R0, 0x42; mov LCDcmd, 0x38; mov LCD, 0x41; mov LCD, R0; mov LCD, [16]; hlt
        Row::new("LCD transfers", "3042 E038 E441 E800 EC10 F800"),
        // mov LCD, 1; mov LCD, 2; mov LCD, 3; mov LCD, 4; mov LCD, 5; hlt
        Row::new("full roll", "E401 E402 E403 E404 E405 F800"),
        // jmp 0
        Row { budget: 10, ..Row::new("spent budget", "A000") },
        // jv 5
        Row { budget: 0, ..Row::new("budget 0 at jv", "C005") },
        Row { budget: 9, ..Row::new("jv on unsettled V", "C005") },
        // mask R0, 0; jle 0
        Row { budget: 9, ..Row::new("jle with Z set", "2800 DC00") },
        // hlt
        Row { budget: 5, start: halted(7), ..Row::new("halted again", "F800") },
        Row { budget: 0, start: halted(7), ..Row::new("halted, budget 0", "F800") },
    ]
}

/// Refused runs of mov R0, IN; hlt, and one that just is not.
fn refusing() -> Vec<Row> {
    let read = |name| Row::new(name, "4000 F800");
    vec![
        Row { keys: &[1, 2], start: at_key(2), ..read("key position at the end") },
        Row { keys: &[1, 2], start: at_key(3), ..read("key position past the end") },
        Row { budget: 1_000_001, ..read("budget over 1,000,000") },
        Row { budget: 1_000_001, start: at_key(1), ..read("18 before 19") },
    ]
}
