//! The fields of a shelf file: what each number of the row tells.

use super::number::{numbers, value};
use cesca_types::{BANK, MOST_ROUTINES};
use std::fmt::{self, Display, Formatter};
use std::ops::RangeInclusive;

/// What a number tells, by its place in the row.
#[derive(Clone, Copy, Debug, PartialEq, Eq)]
pub enum Field {
    /// How many addresses are told.
    N,
    /// The opcode of an address.
    Opcode(u64),
    /// The argument of an address.
    Argument(u64),
    /// The sheet word of an address.
    SheetWord(u64),
    /// How many routines are told.
    Routines,
    /// The entry of a routine.
    Entry(u64),
    /// The need of a routine.
    Need(u64),
    /// Nothing: it stands behind the last number.
    Rest,
}

impl Field {
    /// The field of the number that begins at a byte of a file, if the numbers before it lead
    /// there.
    pub fn at(byte: usize, file: &[u8]) -> Option<Field> {
        let (mut field, mut begin) = (Field::N, 0);
        let (mut n, mut routines) = (0, 0);
        let mut numbers = numbers(file);
        while begin < byte {
            let groups = numbers.next()?;
            match field {
                Field::N => n = value(groups)?,
                Field::Routines => routines = value(groups)?,
                _ => {}
            }
            field = field.next(n, routines);
            begin += groups.len();
        }
        (begin == byte).then_some(field)
    }

    /// The field behind this one, with this n and so many routines.
    fn next(self, n: u64, routines: u64) -> Field {
        let address = |at| if at < n { Field::Opcode(at) } else { Field::Routines };
        let routine = |number| if number < routines { Field::Entry(number) } else { Field::Rest };
        match self {
            Field::N => address(0),
            Field::Opcode(at) => Field::Argument(at),
            Field::Argument(at) => Field::SheetWord(at),
            Field::SheetWord(at) => address(at + 1),
            Field::Routines => routine(0),
            Field::Entry(number) => Field::Need(number),
            Field::Need(number) => routine(number + 1),
            Field::Rest => Field::Rest,
        }
    }

    /// The numbers that may stand in the field.
    pub fn range(self) -> RangeInclusive<u64> {
        match self {
            Field::N => 0..=BANK as u64,
            Field::SheetWord(_) => 0..=u16::MAX.into(),
            Field::Routines => 1..=MOST_ROUTINES as u64,
            _ => 0..=u8::MAX.into(),
        }
    }
}

impl Display for Field {
    fn fmt(&self, out: &mut Formatter<'_>) -> fmt::Result {
        match self {
            Field::N => write!(out, "n"),
            Field::Opcode(at) => write!(out, "the opcode of address {at}"),
            Field::Argument(at) => write!(out, "the argument of address {at}"),
            Field::SheetWord(at) => write!(out, "the sheet word of address {at}"),
            Field::Routines => write!(out, "the number of routines"),
            Field::Entry(number) => write!(out, "the entry of routine {number}"),
            Field::Need(number) => write!(out, "the need of routine {number}"),
            Field::Rest => write!(out, "what follows the last number"),
        }
    }
}
