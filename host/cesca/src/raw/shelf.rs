//! The exports for shelf files, and their answers read into this crate's words.

use super::unknown;
use crate::ShelfRefusal;
use cesca_types::{Refusal, MOST_ROUTINES, SHELF};

/// The bytes of the shortest file: n, the number of routines, and a routine's entry and need.
const SHORTEST: usize = 4;

/// A writer's answer: 0 and the file's length, or a ground's number and 0.
#[repr(C)]
#[derive(Debug)]
pub struct ShelvedNumbers {
    number: u8,
    length: usize,
}

/// An opener's answer: 0 and the number of routines; or a ground's number, and its byte for 30 and
/// 31, else 0.
#[repr(C)]
#[derive(Debug)]
pub struct OpenedNumbers {
    number: u8,
    value: usize,
}

extern "C" {
    pub fn cesca_shelve(
        opcodes: *const u8,
        opcodes_len: usize,
        arguments: *const u8,
        arguments_len: usize,
        sheet: *const u8,
        sheet_len: usize,
        list: *const u8,
        list_len: usize,
        out: *mut u8,
        out_len: usize,
    ) -> ShelvedNumbers;
    pub fn cesca_open(
        file: *const u8,
        file_len: usize,
        opcodes: *mut u8,
        opcodes_len: usize,
        arguments: *mut u8,
        arguments_len: usize,
        sheet: *mut u8,
        sheet_len: usize,
        list: *mut u8,
        list_len: usize,
    ) -> OpenedNumbers;
}

impl ShelvedNumbers {
    /// The file's length for 0, else the refusal of that number.
    pub fn outcome(&self) -> Result<usize, Refusal> {
        match (self.number, self.length) {
            (0, length @ SHORTEST..=SHELF) => Ok(length),
            (1 | 2 | 3 | 32, 0) => Err(Refusal::of_call(self.number)),
            _ => unknown("length of a shelf file or refusal to write one", format!("{self:?}")),
        }
    }
}

impl OpenedNumbers {
    /// The number of routines for 0, else the refusal of that number.
    pub fn outcome(&self) -> Result<usize, ShelfRefusal> {
        match (self.number, self.value) {
            (0, routines @ 1..=MOST_ROUTINES) => Ok(routines),
            (1..=3, 0) => Err(ShelfRefusal::new(self.number, None)),
            (30 | 31, byte) => Err(ShelfRefusal::new(self.number, Some(byte))),
            _ => unknown("number of routines or refusal of a shelf file", format!("{self:?}")),
        }
    }
}

#[cfg(test)]
mod tests {
    use super::*;
    use std::panic::catch_unwind;

    /// A writer's answer.
    fn shelved(number: u8, length: usize) -> Option<Result<usize, Refusal>> {
        catch_unwind(|| ShelvedNumbers { number, length }.outcome()).ok()
    }

    /// An opener's answer: the routines, or number and byte.
    fn opened(number: u8, value: usize) -> Option<Result<usize, (u8, Option<usize>)>> {
        let answer = catch_unwind(|| OpenedNumbers { number, value }.outcome()).ok()?;
        Some(answer.map_err(|refusal| (refusal.number(), refusal.byte())))
    }

    #[test]
    fn lengths_and_their_refusals() {
        for length in [4, 51, 2_051] {
            assert_eq!(shelved(0, length), Some(Ok(length)));
        }
        for length in [0, 3, 2_052, usize::MAX] {
            assert_eq!(shelved(0, length), None, "{length}");
        }
        for number in 1..=255 {
            let refusal = [1, 2, 3, 32].contains(&number).then(|| Err(Refusal::of_call(number)));
            assert_eq!(shelved(number, 0), refusal, "{number}");
            assert_eq!([shelved(number, 4), shelved(number, 2_051)], [None, None], "{number}");
        }
    }

    #[test]
    fn routines_and_their_refusals() {
        for routines in 0..=300 {
            let wanted = (1..=64).contains(&routines).then_some(Ok(routines));
            assert_eq!(opened(0, routines), wanted, "{routines}");
        }
        for number in 1..=255 {
            let of_file = [30, 31].contains(&number);
            for byte in [0, 1, usize::MAX] {
                let of_buffers = number <= 3 && byte == 0;
                let place = of_file.then_some(byte);
                let wanted = (of_file || of_buffers).then_some(Err((number, place)));
                assert_eq!(opened(number, byte), wanted, "{number} {byte}");
            }
        }
    }
}
