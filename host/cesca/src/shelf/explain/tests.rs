//! Every kind of refusal, at every field.

use super::{explained, words};
use crate::samples::a;
use crate::shelf::{open, open_into, shelve, ShelfRefusal};

/// Checks how the refusal of a file is shown.
fn check(file: &[u8], shown: &str) {
    assert_eq!(open(file).expect_err(shown).to_string(), shown, "{file:02X?}");
}

/// The bytes of these parts, one behind another.
fn joined(parts: &[&[u8]]) -> Vec<u8> {
    parts.concat()
}

#[test]
fn numbers_that_are_missing() {
    check(&[], "30 at byte 0: the file ends before n");
    check(&[1], "30 at byte 1: the file ends before the opcode of address 0");
    check(&[2, 1, 2, 3, 4], "30 at byte 5: the file ends before the argument of address 1");
    check(&[1, 5, 9], "30 at byte 3: the file ends before the sheet word of address 0");
    check(&[0], "30 at byte 1: the file ends before the number of routines");
    check(&[0, 2, 0, 2], "30 at byte 4: the file ends before the entry of routine 1");
    check(&[0, 1, 0], "30 at byte 3: the file ends before the need of routine 0");
}

#[test]
fn numbers_that_are_cut_off() {
    check(&[0x80], "30 at byte 0: n is cut off: 80");
    check(&[1, 0xFF, 0xFF], "30 at byte 1: the opcode of address 0 is cut off: FF FF");
    check(&[1, 0xC8, 0x01, 0xC8], "30 at byte 3: the argument of address 0 is cut off: C8");
    let sheet = [1, 5, 9, 0x80, 0x80];
    check(&sheet, "30 at byte 3: the sheet word of address 0 is cut off: 80 80");
    check(&[0, 0x80], "30 at byte 1: the number of routines is cut off: 80");
    let ten = "30 at byte 0: n is cut off: FF FF FF FF FF FF FF .. FF, 10 groups";
    check(&[0xFF; 10], ten);
}

#[test]
fn numbers_that_are_not_in_their_shortest_form() {
    check(&[0x81, 0], "30 at byte 0: n is not in its shortest form: 81 00");
    let argument = "the argument of address 1 is not in its shortest form: 80 00";
    check(&[2, 1, 2, 3, 4, 0x80, 0, 7, 1, 0, 0], &format!("30 at byte 5: {argument}"));
    let entry = "30 at byte 2: the entry of routine 0 is not in its shortest form: FF 80 00";
    check(&[0, 1, 0xFF, 0x80, 0, 0], entry);
    let long = "n is not in its shortest form: FF FF FF FF FF FF FF .. 00, 11 groups";
    check(&joined(&[&[0xFF; 10], &[0]]), &format!("30 at byte 0: {long}"));
}

#[test]
fn numbers_that_their_fields_do_not_have() {
    check(&[0x81, 2], "31 at byte 0: n is 257, not 0 to 256");
    check(&[1, 0x80, 2], "31 at byte 1: the opcode of address 0 is 256, not 0 to 255");
    let argument = "31 at byte 5: the argument of address 1 is 383, not 0 to 255";
    check(&[2, 1, 2, 3, 4, 0xFF, 2, 7, 1, 0, 0], argument);
    let sheet = "31 at byte 3: the sheet word of address 0 is 65536, not 0 to 65535";
    check(&[1, 5, 9, 0x80, 0x80, 4], sheet);
    check(&[0, 0], "31 at byte 1: the number of routines is 0, not 1 to 64");
    check(&[0, 65], "31 at byte 1: the number of routines is 65, not 1 to 64");
    check(&[0, 1, 0x80, 2, 0], "31 at byte 2: the entry of routine 0 is 256, not 0 to 255");
    check(&[0, 1, 0, 0x80, 2], "31 at byte 3: the need of routine 0 is 256, not 0 to 255");
}

#[test]
fn numbers_beyond_64_bits() {
    let nine = joined(&[&[0xFF; 8], &[0x7F]]);
    check(&nine, "31 at byte 0: n is 9223372036854775807, not 0 to 256");
    let ten = joined(&[&[0xFF; 10], &[1]]);
    check(&ten, "31 at byte 0: n is a number of 11 groups, not 0 to 256");
    let many = joined(&[&[0, 1, 5], &vec![0x80; 1_000_000], &[1]]);
    let need = "the need of routine 0 is a number of 1000001 groups, not 0 to 255";
    check(&many, &format!("31 at byte 3: {need}"));
}

#[test]
fn an_n_that_is_not_the_least() {
    let two = "31 at byte 0: n is 4, where 2 is the least: all is 0 from address 2 on";
    check(&[4, 5, 0, 0, 0, 9, 0, 0, 0, 0, 0, 0, 0, 1, 0, 0], two);
    let none = "31 at byte 0: n is 1, where 0 is the least: all is 0 from address 0 on";
    check(&[1, 0, 0, 0, 1, 0, 0], none);
    // Bytes that follow are not what it is refused for.
    check(&[1, 0, 0, 0, 1, 0, 0, 7, 7], none);
}

#[test]
fn bytes_that_follow() {
    let file = shelve(&a().listing());
    check(&joined(&[&file, &[0]]), "31 at byte 51: 1 byte follows the last number");
    check(&joined(&[&file, &[0xFF; 3]]), "31 at byte 51: 3 bytes follow the last number");
    check(&joined(&[&file, &file]), "31 at byte 51: 51 bytes follow the last number");
}

#[test]
fn buffers_of_another_length() {
    let file = shelve(&a().listing());
    for (lengths, told) in [
        ([255, 256, 0, 0], "1: there are 255 opcodes and 256 arguments, not 256 of each"),
        ([256, 257, 512, 128], "1: there are 256 opcodes and 257 arguments, not 256 of each"),
        ([256, 256, 511, 4], "2: the sheet's buffer has 511 bytes, not 512"),
        ([256, 256, 512, 4], "3: the list's buffer has 4 bytes, not 128"),
    ] {
        let mut buffers = lengths.map(|length| vec![7; length]);
        let [opcodes, arguments, sheet, list] = &mut buffers;
        for file in [&file[..], &[], &[0, 65]] {
            let refusal = open_into(file, opcodes, arguments, sheet, list).expect_err(told);
            assert_eq!((refusal.to_string().as_str(), refusal.byte()), (told, None));
        }
        assert_eq!(buffers, lengths.map(|length| vec![7; length]), "{told}");
    }
}

#[test]
fn another_number_or_byte_keeps_its_general_words() {
    let file = shelve(&a().listing());
    for byte in [0, 1, 3, 45, 50, 51, 52, usize::MAX] {
        for number in [30, 31] {
            let refusal = ShelfRefusal::new(number, Some(byte));
            // A file that ends with its last number lacks nothing, and nothing follows.
            assert_eq!(explained(refusal.clone(), &file, [0; 4]), refusal, "{number} {byte}");
        }
    }
    assert_eq!(words(32, 0, &file), None);
    let opened = ShelfRefusal::new(30, None);
    assert_eq!(explained(opened.clone(), &file, [0; 4]), opened);
}
