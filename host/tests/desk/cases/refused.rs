//! Listings of full length that are refused.

use super::{last, list, sheet, word, Named};
use reference::Listing;

/// A jlt after a mask, V marked all the way.
const MASKED: &str = "
    routine 0 at 0 need 0
    0  8000  30 64  mov R0, 100
    1  8000  24 C8  cmp R0, 200
    2  C000  28 0F  mask R0, 15
    3  C000  D8 05  jlt 5
    4  8000  F8 00  hlt
    5  8000  F8 00  hlt
";

/// Refused listings, ground by ground.
pub fn cases() -> Vec<Named> {
    [parts(), entries(), addresses(), calls(), successors(), order()].concat()
}

/// The sheet's words by themselves: 4 and 5.
fn parts() -> Vec<Named> {
    vec![
        // A depth without bit 15.
        ("04-depth-only", sheet(8, 0x0001)),
        // A mark of V without bit 15.
        ("04-mark-only", sheet(255, 0x4000)),
        // Two such words, and a lower one that breaks 5: 4 comes first, its lowest address counts.
        ("04-lowest-address", sheet(200, 0x0100).with_sheet(9, 0x0080).with_sheet(3, 0xBF00)),
        // Routine 2 of two.
        ("05-no-such-routine", sheet(8, 0x8200)),
        // Routine 63 at 255 and routine 2 at 20.
        ("05-lowest-address", sheet(255, 0xBF00).with_sheet(20, 0x8200)),
        // Routine 0's entry isn't 0 either, but 5 comes before 6.
        ("05-before-06", sheet(8, 0x8200).with_list(&[1, 2, 4, 1])),
    ]
}

/// The routines' entries: 6 and 7.
fn entries() -> Vec<Named> {
    vec![
        // Routine 0 begins at 1.
        ("06-entry-at-1", list(&[1, 2, 4, 1])),
        // Routine 1's entry isn't described either, but 6 comes before 7.
        ("06-before-07", list(&[1, 2, 8, 1])),
        // Routine 1's entry isn't described.
        ("07-not-described", list(&[0, 2, 8, 1])),
        // Routine 1's entry names routine 0.
        ("07-another-routine", list(&[0, 2, 3, 1])),
        // Routine 1's entry has depth 1.
        ("07-at-a-depth", list(&[0, 2, 5, 1])),
        // Routine 1's entry marks V.
        ("07-marks-v", list(&[0, 2, 7, 1])),
        // Both entries are bad: the lowest routine counts.
        ("07-lowest-routine", sheet(0, 0xC000).with_sheet(4, 0x0000)),
        // Two routines with one entry: it names the first of them.
        ("07-shared-entry", list(&[0, 2, 4, 1, 4, 1])),
    ]
}

/// One address at a time: 8 to 13.
fn addresses() -> Vec<Named> {
    vec![
        // Routine 1 has depth 1 at 5 and need 0.
        ("08-too-deep", list(&[0, 2, 4, 0])),
        // jmp R0 instead of hlt.
        ("09-jmp-r0", word(3, [0xA4, 0x00])),
        // jv, jnv, jlt and jle where V isn't marked.
        ("10-jv", word(2, [0xC0, 0x03])),
        ("10-jnv", word(2, [0xC4, 0x03])),
        ("10-jlt", word(2, [0xD8, 0x03])),
        ("10-jle", word(2, [0xDC, 0x03])),
        // A routine that pops its return address.
        ("11-pop", word(4, [0x88, 0x00])),
        // A routine that swaps its return address.
        ("11-swap", word(4, [0x9A, 0x00])),
        // ret in routine 0.
        ("12-in-routine-0", word(3, [0xAC, 0x00])),
        // ret with a byte of its own above the return address.
        ("12-at-a-depth", word(6, [0xAC, 0x00])),
        // nop, jz, call and push at 255.
        ("13-nop", last(0x8000, [0xFC, 0x00])),
        ("13-jz", last(0x8000, [0xB0, 0x03])),
        ("13-call", last(0x8000, [0xA8, 0x04])),
        ("13-push-on-a-full-stack", Listing::pushes([0x5C, 0x00])),
    ]
}

/// Calls: 14 and 15.
fn calls() -> Vec<Named> {
    let itself = word(5, [0xA8, 0x04]).with_sheet(6, 0x8101).with_sheet(7, 0x8100);
    vec![
        // A call into the middle of routine 1.
        ("14-not-the-entry", word(1, [0xA8, 0x05])),
        // A call to where nothing is described.
        ("14-nowhere", word(1, [0xA8, 0x80])),
        // M9: routine 0 needs a return address and routine 1's byte.
        ("15-need-understated", list(&[0, 1, 4, 1])),
        // A routine that calls itself, with the largest need that routine 0 can call.
        ("15-recursion", itself.with_list(&[0, 255, 4, 254])),
    ]
}

/// Successors: 16.
fn successors() -> Vec<Named> {
    let jump_back = "routine 0 at 0 need 1\n0 8000 5C 00 push R0\n1 8001 A0 00 jmp 0";
    vec![
        // M10: V marked at the word after a call.
        ("16-v-after-call", sheet(2, 0xC000)),
        // mov OUT goes on to a word that isn't described.
        ("16-not-described", sheet(3, 0x0000)),
        // .. that is in another routine.
        ("16-another-routine", sheet(3, 0x8100)),
        // .. that has another depth.
        ("16-another-depth", sheet(3, 0x8001)),
        // .. that marks V, which wasn't marked before.
        ("16-v-out-of-nowhere", sheet(3, 0xC000)),
        // A push and then a jump back: the stack would grow.
        ("16-growing-stack", Listing::read(jump_back)),
        // A mask unsettles V.
        ("16-v-across-mask", Listing::read(MASKED)),
    ]
}

/// Several grounds at once: the lowest address, and there the lowest number.
fn order() -> Vec<Named> {
    vec![
        // jmp R0 at a depth over the need.
        ("order-08-09", last(0x8003, [0xA4, 0x00])),
        // jlt at 255 without a mark.
        ("order-10-13", last(0x8000, [0xD8, 0x00])),
        // swap at 255 at depth 0.
        ("order-11-13", last(0x8000, [0x90, 0x00])),
        // A call at 255 of no entry.
        ("order-13-14", last(0x8000, [0xA8, 0x05])),
        // A call of no entry before a word that isn't described.
        ("order-14-16", word(1, [0xA8, 0x05]).with_sheet(2, 0x0000)),
        // A call with too small a need before a word that isn't described.
        ("order-15-16", sheet(2, 0x0000).with_list(&[0, 1, 4, 1])),
        // 12 at 3 comes before 9 at 6.
        ("order-12-at-3-09-at-6", word(6, [0xA4, 0x00]).with_word(3, [0xAC, 0x00])),
    ]
}
