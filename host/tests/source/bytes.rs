//! Any bytes at all as text.

use crate::compare::agreed;
use crate::random::{each_case, Random};

/// Parts that texts are made of, and some that they aren't.
#[rustfmt::skip]
const PARTS: [&[u8]; 40] = [
    b"mov", b"add", b"jmp", b"nop", b"hlt", b"jgt", b"swap", b"ret", b" ", b" ", b" ", b", ",
    b", ", b": ", b"a", b"b", b"NONE", b"IN", b"R0", b"R1", b"R3", b"R4", b"0", b"1", b"255",
    b"256", b"0x", b"0x1F", b"[", b"]", b"\n", b"\n", b"\n", b"\n", b"\r", b"\t", b"\0", b"\xC3",
    b"mov R0, 1", b"a: jmp a",
];

/// Some bytes, each of any value.
fn any_bytes(random: &mut Random) -> Vec<u8> {
    let length = random.below(400) as usize;
    random.bytes(length)
}

/// Some parts of texts in any order.
fn any_parts(random: &mut Random) -> Vec<u8> {
    let count = random.below(12) as usize;
    (0..count).flat_map(|_| random.pick(&PARTS)).copied().collect()
}

#[test]
fn any_bytes_are_answered_alike() {
    let mut refused = 0;
    each_case(20_000, |random| refused += u64::from(agreed(&any_bytes(random)).is_err()));
    assert!(refused > 19_000, "{refused} refused");
}

#[test]
fn any_parts_are_answered_alike() {
    let mut read = 0;
    each_case(100_000, |random| read += u64::from(agreed(&any_parts(random)).is_ok()));
    assert!(read > 5_000, "{read} read");
}

#[test]
fn every_byte_is_answered_alike_at_every_place() {
    let text = b"ab: jge R3, 0x1F, ab\nmov [R0], R1";
    let mut read = 0;
    for at in 0..text.len() {
        for byte in 0..=255 {
            let mut changed = text.to_vec();
            changed[at] = byte;
            read += u32::from(agreed(&changed).is_ok());
        }
    }
    // The 33 bytes themselves; jgt; three other registers at each of three places; 21 other digits
    // at both of 0x1F; [10] to [90] in place of [R0].
    assert_eq!(read, 33 + 1 + 3 * 3 + 2 * 21 + 9);
}
