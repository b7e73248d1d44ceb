//! Listings that are admitted and run.

use super::{last, list, word, Named};
use reference::Listing;

/// The bytes of a list that is as long as can be.
const LONGEST_LIST: usize = 128;

/// A comparison whose V decides.
const V_SETTLED: &str = "
    routine 0 at 0 need 0
    0  8000  30 64  mov R0, 100
    1  8000  24 C8  cmp R0, 200
    2  C000  D8 05  jlt 5
    3  8000  F0 00  mov OUT, R0
    4  8000  F8 00  hlt
    5  8000  F8 00  hlt
";

/// 7 more than the first key and a data byte.
const NOTHING_THERE: &str = "
    routine 0 at 0 need 0
    0  8000  40 00  mov R0, IN
    1  8000  64 C8  mov R1, [200]
    2  8000  00 11  add R0, R0, R1
    3  8000  10 07  add R0, R0, 7
    4  8000  F0 00  mov OUT, R0
    5  8000  F8 00  hlt
";

/// Counting for ever, with a byte on the stack.
const SPENT: &str = "
    routine 0 at 0 need 1
    0  8000  5C 00  push R0
    1  8001  10 01  add R0, R0, 1
    2  8001  F0 00  mov OUT, R0
    3  8001  A0 01  jmp 1
";

/// Every word but the last writes to the roll.
const TALKING: &str = "
    routine 0 at 0 need 0
    0-254  8000  E4 41  mov LCD, 65
    255    8000  A0 00  jmp 0
";

/// hlt as the thousandth step.
const LAST_STEP: &str = "
    5  8000  30 2A  mov R0, 42
    6  8000  F0 00  mov OUT, R0
    7  8000  F8 00  hlt
";

/// hlt as the step after the thousandth.
const PAST_LAST_STEP: &str = "
    5  8000  30 2A  mov R0, 42
    6  8000  F0 00  mov OUT, R0
    7  8000  FC 00  nop
    8  8000  F8 00  hlt
";

/// 997 steps of counting and these words after them.
fn counting(end: &str) -> Listing {
    let start = "
        routine 0 at 0 need 0
        0  8000  30 F9  mov R0, 249
        1  8000  FC 00  nop
        2  8000  FC 00  nop
        3  8000  10 FF  add R0, R0, 255
        4  8000  B4 01  jnz 1
    ";
    Listing::read(&format!("{start}{end}"))
}

/// Each routine calls the next one; the last only returns.
fn sixty_four_routines() -> Listing {
    let mut listing = Listing::blank().with_word(1, [0xF8, 0x00]).with_sheet(1, 0x8000);
    for routine in 0..64 {
        let (entry, own) = (2 * routine, u16::from(routine) << 8 | 0x8000);
        let first = if routine < 63 { [0xA8, entry + 2] } else { [0xAC, 0x00] };
        listing = listing.with_word(entry, first).with_sheet(entry, own);
        if (1..63).contains(&routine) {
            listing = listing.with_word(entry + 1, [0xAC, 0x00]).with_sheet(entry + 1, own);
        }
        listing.list.extend([entry, 63 - routine]);
    }
    assert_eq!(listing.list.len(), LONGEST_LIST);
    listing
}

/// Listing A with free bits set in call, hlt, pop and ret.
fn free_bits() -> Listing {
    let a = word(1, [0xAB, 0x04]).with_word(3, [0xF9, 0x11]);
    a.with_word(6, [0x8A, 0xFF]).with_word(7, [0xAE, 0x80])
}

/// Admitted listings.
pub fn cases() -> Vec<Named> {
    vec![
        // Listing A as it stands.
        ("a", Listing::a()),
        // The need that is printed is routine 0's, however large.
        ("a-with-slack-needs", list(&[0, 255, 4, 254])),
        // Free bits are ignored.
        ("a-with-free-bits", free_bits()),
        // An address without a description may hold anything, here jmp R0.
        ("a-beside-jmp-r0", word(8, [0xA4, 0x00])),
        // 255 is described and jumps back, so its next word is no successor.
        ("jump-at-255", last(0x8000, [0xA0, 0x03])),
        // The routine goes on at 255 and returns from there.
        ("ret-at-255", last(0xC100, [0xAC, 0x00]).with_word(7, [0xA0, 0xFF])),
        // 255 pushes, then hlt at 255: SP is 0.
        ("full-stack", Listing::pushes([0xF8, 0x00])),
        // A list of 128 bytes, and calls 63 deep.
        ("sixty-four-routines", sixty_four_routines()),
        // 100 isn't less than -56, although the difference overflows: V counts.
        ("v-settled", Listing::read(V_SETTLED)),
        // Keys and data are 0.
        ("no-keys-zero-data", Listing::read(NOTHING_THERE)),
        // A loop that leaves a byte on the stack and spends the budget.
        ("spent", Listing::read(SPENT)),
        // hlt is the thousandth step.
        ("halted-at-the-last-step", counting(LAST_STEP)),
        // hlt would be the step after the thousandth.
        ("spent-before-hlt", counting(PAST_LAST_STEP)),
        // The roll has room for a word at each step.
        ("roll-never-full", Listing::read(TALKING)),
    ]
}
