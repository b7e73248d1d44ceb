//! The export for drawing, and its answer read into this crate's words.

use super::unknown;
use cesca_types::{Refusal, MOST_ROUTINES};

/// A drawer's answer: 0 and the number of routines, or a ground's number and 0.
#[repr(C)]
#[derive(Debug)]
pub struct DrawNumbers {
    number: u8,
    routines: u8,
}

extern "C" {
    pub fn cesca_draw(
        opcodes: *const u8,
        opcodes_len: usize,
        arguments: *const u8,
        arguments_len: usize,
        sheet: *mut u8,
        sheet_len: usize,
        list: *mut u8,
        list_len: usize,
    ) -> DrawNumbers;
}

impl DrawNumbers {
    /// The number of routines for 0, else the refusal of that number.
    pub fn outcome(&self) -> Result<usize, Refusal> {
        match (self.number, usize::from(self.routines)) {
            (0, routines @ 1..=MOST_ROUTINES) => Ok(routines),
            (1 | 2 | 3 | 27, 0) => Err(Refusal::of_call(self.number)),
            _ => unknown("number of routines or refusal to draw", format!("{self:?}")),
        }
    }
}

#[cfg(test)]
mod tests {
    use super::*;
    use std::panic::catch_unwind;

    /// A drawer's answer.
    fn drawn(number: u8, routines: u8) -> Option<Result<usize, Refusal>> {
        catch_unwind(|| DrawNumbers { number, routines }.outcome()).ok()
    }

    #[test]
    fn routines_and_their_refusals() {
        for routines in 0..=255 {
            let wanted = (1..=64).contains(&routines).then(|| Ok(routines.into()));
            assert_eq!(drawn(0, routines), wanted, "{routines}");
        }
        for number in 1..=255 {
            let refusal = [1, 2, 3, 27].contains(&number).then(|| Err(Refusal::of_call(number)));
            assert_eq!(drawn(number, 0), refusal, "{number}");
            assert_eq!([drawn(number, 1), drawn(number, 64)], [None, None], "{number}");
        }
    }
}
