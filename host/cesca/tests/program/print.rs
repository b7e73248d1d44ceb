//! `cesca print`.

use crate::sandbox::{expect_err, expect_out, stored, Sandbox};

/// Banks of 0 but for these words from address 0.
fn banks(words: &[[u8; 2]]) -> Vec<u8> {
    let mut banks = vec![0; 512];
    for (at, [opcode, argument]) in words.iter().enumerate() {
        (banks[at], banks[256 + at]) = (*opcode, *argument);
    }
    banks
}

/// Listing A, as it is printed.
const A: &str = "\
mov R0, 5
call 4
mov OUT, R0
hlt
push R2
add R0, R0, 1
pop R2
ret
";

#[test]
fn a_listing_and_its_banks() {
    let sandbox = Sandbox::new("print-a").with_stored(&["a.bin"]);
    let sandbox = sandbox.with("a.banks", &stored("a.bin")[..512]);
    expect_out(sandbox.cesca(&["print", "a.bin"]), A);
    expect_out(sandbox.cesca(&["print", "a.banks"]), A);
    expect_out(sandbox.cesca_given(&["print", "-"], stored("a.bin")), A);
}

#[test]
fn words_up_to_the_last_that_is_not_zero() {
    let sandbox = Sandbox::new("print-last").with("none.banks", banks(&[]));
    expect_out(sandbox.cesca(&["print", "none.banks"]), "");
    let words = [[0, 0], [0, 0], [0xF8, 0], [0, 0]];
    let sandbox = sandbox.with("some.banks", banks(&words));
    expect_out(sandbox.cesca(&["print", "some.banks"]), "mov R0, R0\nmov R0, R0\nhlt\n");
    let sandbox = sandbox.with("full.banks", banks(&[[0, 1]; 256]));
    expect_out(sandbox.cesca(&["print", "full.banks"]), &"mov R0, R1\n".repeat(256));
}

#[test]
fn what_is_printed_is_assembled_to_the_same_words() {
    for name in ["a.bin", "multiply.bin", "nested.bin", "pushes.bin", "masked.bin"] {
        let sandbox = Sandbox::new("print-again").with_stored(&[name]);
        let printed = sandbox.cesca(&["print", name]).out;
        let again = sandbox.cesca_given(&["assemble", "-", "again.banks"], &printed);
        assert_eq!((again.status, again.err.as_str()), (0, ""), "{name}");
        assert!(sandbox.read("again.banks") == stored(name)[..512], "{name}");
    }
}

#[test]
fn free_bits_and_fields_that_are_not_shown_come_back_as_0() {
    // not R1, R2 with Rb 3; ret with free bits.
    let sandbox = Sandbox::new("print-free").with("mine.banks", banks(&[[0x06, 0x7F], [0xAF, 9]]));
    let printed = sandbox.cesca(&["print", "mine.banks"]);
    assert_eq!(printed.out, "not R1, R2\nret\n");
    sandbox.cesca_given(&["assemble", "-", "again.banks"], &printed.out);
    assert!(sandbox.read("again.banks") == banks(&[[0x06, 0x70], [0xAC, 0]]));
}

#[test]
fn files_that_are_too_short() {
    for length in [0, 1, 256, 511] {
        let sandbox = Sandbox::new("print-short").with("mine.banks", vec![0; length]);
        let told =
            format!("mine.banks: refused 1: its length is {length}, and that of banks is 512\n");
        expect_err(sandbox.cesca(&["print", "mine.banks"]), 1, &told);
    }
    let sandbox = Sandbox::new("print-missing");
    let missing = "mine.banks: No such file or directory\n";
    expect_err(sandbox.cesca(&["print", "mine.banks"]), 2, missing);
}

#[test]
fn files_that_are_neither_banks_nor_a_listing() {
    let longer = "it is longer than banks and no listing:";
    let list = "not an even number from 2 to 128";
    for (length, told) in [
        (513, format!("2 at 0: {longer} the sheet has 1 byte, not 512")),
        (1023, format!("2 at 0: {longer} the sheet has 511 bytes, not 512")),
        (1024, format!("3 at 0: {longer} the routine list has 0 bytes, {list}")),
        (1027, format!("3 at 0: {longer} the routine list has 3 bytes, {list}")),
        (1153, format!("3 at 0: {longer} the routine list has more than 128 bytes")),
        (5000, format!("3 at 0: {longer} the routine list has more than 128 bytes")),
    ] {
        let text = "hlt\n".bytes().cycle().take(length).collect::<Vec<u8>>();
        let sandbox = Sandbox::new("print-text").with("mine.txt", text);
        let told = format!("mine.txt: refused {told}\n");
        expect_err(sandbox.cesca(&["print", "mine.txt"]), 1, &told);
    }
    let sandbox = Sandbox::new("print-lengths").with("short.bin", vec![0; 1026]);
    let sandbox = sandbox.with("long.bin", vec![0; 1152]);
    expect_out(sandbox.cesca(&["print", "short.bin"]), "");
    expect_out(sandbox.cesca(&["print", "long.bin"]), "");
    let told =
        format!("/dev/zero: refused 3 at 0: {longer} the routine list has more than 128 bytes\n");
    expect_err(sandbox.cesca(&["print", "/dev/zero"]), 1, &told);
}
