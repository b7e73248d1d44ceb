//! Listings to admit or to refuse, early and late.

use cesca::BANK;
use reference::{Listing, SheetWord};

/// The entry of the last routine of a listing full of calls.
const LAST_ENTRY: u8 = 252;

/// The calls of such a listing.
pub const CALLS: usize = 189;

/// Every address described: four routines that call one another, all kinds of instructions.
const FULL: &str = "
    routine 0 at 0 need 4
    routine 1 at 64 need 3
    routine 2 at 128 need 1
    routine 3 at 192 need 0

    0-15     8000  10 01  add R0, R0, 1
    16-31    8000  A8 40  call 64
    32-47    8000  B0 00  jz 0
    48-62    8000  F0 00  mov OUT, R0
    63       8000  F8 00  hlt

    64       8100  5E 00  push R2
    65-95    8101  0A 10  add R2, R2, R0
    96-110   8101  A8 80  call 128
    111-125  8101  97 00  swap R1, R3
    126      8101  88 00  pop R2
    127      8100  AC 00  ret

    128-143  8200  A8 C0  call 192
    144-159  8200  70 00  mov R0, [R0]
    160-190  8200  C8 80  jlz 128
    191      8200  AC 00  ret

    192-253  8300  24 05  cmp R0, 5
    254      C300  D8 C0  jlt 192
    255      8300  AC 00  ret
";

/// The listings by name.
pub fn listings() -> [(&'static str, Listing); 5] {
    let full = || Listing::read(FULL);
    [
        ("listing A", Listing::a()),
        ("256 addresses", full()),
        ("refused 1 at 0", Listing { opcodes: vec![0; BANK - 1], ..full() }),
        ("refused 4 at 0", full().with_sheet(0, 0x0001)),
        ("refused 16 at 254", full().with_word(254, [0xD8, 0x00])), // jlt 0
    ]
}

/// A listing of 2 to 64 routines: the last returns at once, and three words in every four of the
/// others call it. The words are the same for any number of routines.
pub fn calls(routines: u8) -> Listing {
    let last = routines - 1;
    let routine = |at: u8| (u16::from(at / 4) * u16::from(last) / 63) as u8;
    let entry = |number: u8| (0..=LAST_ENTRY).find(|at| routine(*at) == number);
    let list = (0..routines).flat_map(|number| {
        [entry(number).expect("routines of four words at least"), u8::from(number < last)]
    });
    let listing = Listing::blank().with_list(&list.collect::<Vec<u8>>());
    (0..=255).fold(listing, |listing, at| {
        let sheet = SheetWord::new(routine(at), 0, false).0;
        listing.with_word(at, call_or_end(at)).with_sheet(at, sheet)
    })
}

/// The word at an address of such a listing: a call of the last routine, a jump back to the first
/// of four addresses, or the last routine's `ret`.
fn call_or_end(at: u8) -> [u8; 2] {
    match at {
        LAST_ENTRY.. => [0xAC, 0x00],
        _ if at % 4 == 3 => [0xA0, at - 3],
        _ => [0xA8, LAST_ENTRY],
    }
}

#[cfg(test)]
mod tests {
    use super::*;

    #[test]
    fn the_names_tell_the_answers() {
        for (name, listing) in listings() {
            let found = listing.admit().map_err(|refusal| {
                let place = refusal.place().expect("a place");
                format!("refused {} at {place}", refusal.number())
            });
            let refused = name.starts_with("refused");
            let wanted = if refused { Err(name.to_string()) } else { Ok(()) };
            assert_eq!(found, wanted);
        }
    }

    #[test]
    fn calls_are_admitted() {
        for routines in 2..=64 {
            let listing = calls(routines);
            assert_eq!(listing.admit(), Ok(()), "{routines}");
            assert_eq!(listing.list.len(), 2 * usize::from(routines));
            assert_eq!(listing.opcodes.iter().filter(|opcode| **opcode == 0xA8).count(), CALLS);
        }
    }
}
