//! The export for admission, and its answer read into this crate's words.

use super::unknown;
use cesca_types::Refusal;

/// How many places each ground can have, by its number: a routine for 7, an address for others, or
/// none, which is told as 0.
const PLACES: [u16; 17] =
    [0, 1, 1, 1, 256, 256, 1, 64, 256, 256, 256, 256, 256, 256, 256, 256, 256];

extern "C" {
    pub fn cesca_admit(
        opcodes: *const u8,
        opcodes_len: usize,
        arguments: *const u8,
        arguments_len: usize,
        sheet: *const u8,
        sheet_len: usize,
        list: *const u8,
        list_len: usize,
    ) -> u32;
}

/// Success for 0, else the refusal of that answer.
#[inline]
pub fn outcome(answer: u32) -> Result<(), Refusal> {
    if answer == 0 {
        return Ok(());
    }
    let [number, place, 0, 0] = answer.to_le_bytes() else { unknown("ground", answer) };
    let places = PLACES.get(usize::from(number)).copied().unwrap_or(0);
    if u16::from(place) >= places {
        unknown("ground", answer);
    }
    Err(Refusal::of_listing(number, place))
}

#[cfg(test)]
mod tests {
    use super::*;
    use std::panic::catch_unwind;

    #[test]
    fn answers_that_the_papers_give() {
        assert_eq!(outcome(0), Ok(()));
        for answer in [1, 2, 3, 4, 0xFF04, 5, 6, 7, 0x3F07, 8, 0xFF08, 16, 271, 272, 0xFF10] {
            let refusal = outcome(answer).expect_err("a refusal");
            assert_eq!(refusal.answer(), answer);
        }
        assert_eq!(outcome(271), Err(Refusal::of_listing(15, 1)));
        let last = outcome(0xFF0D).expect_err("a refusal").to_string();
        assert_eq!(last, "13 at 255: it is address 255 and would go on to the next word");
    }

    #[test]
    fn other_answers_break_the_contract() {
        let unknown = [17, 23, 255, 256, 0x101, 0x102, 0x103, 0x106, 0x4007, 0x1_0004, u32::MAX];
        for answer in unknown {
            assert!(catch_unwind(|| outcome(answer)).is_err(), "{answer}");
        }
    }
}
