//! Shifts: the lines of request 6, each a function of a byte.

use crate::file::Outcome;
use crate::values::{flag, number};
use cesca::{AluAnswer, Overflow};
use reference::Function;

/// The shifts by name.
const SHIFTS: [(&str, Function); 4] = [
    ("sll", Function::Sll),
    ("srl", Function::Srl),
    ("sra", Function::Sra),
    ("rol", Function::Rol),
];

/// What a line tells: a shift of a byte, the carry flag before it, and its answer.
#[derive(Debug)]
struct Shift {
    function: Function,
    byte: u8,
    carry: bool,
    answer: AluAnswer,
}

/// Whether library and reference answer what a line says, whatever Rb's byte is.
pub fn shift(line: &str) -> Outcome {
    let Shift { function, byte, carry, answer } = read(line)?;
    for other in 0..=255 {
        let found = cesca::alu(function as u8, byte, other, carry);
        let reference = reference::alu(function, byte, other, carry);
        for (name, found) in [("the library", found), ("the reference", reference)] {
            if found != answer {
                return Err(format!("{name} answers {found:?} with Rb {other}"));
            }
        }
    }
    Ok(())
}

/// The shift of a line: name, byte and carry flag, then result, Z, C and S; V is unsettled.
fn read(line: &str) -> Result<Shift, String> {
    let (before, after) = line.split_once(" : ").ok_or("no colon")?;
    let ([name, byte, carry], [value, z, c, s]) = (&words(before)[..], &words(after)[..]) else {
        return Err("three words and four are wanted".to_string());
    };
    let shift = SHIFTS.into_iter().find(|(shift, _)| shift == name);
    let (_, function) = shift.ok_or_else(|| format!("{name:?} is no shift"))?;
    let (value, v) = (number(value)?, Overflow::Unsettled);
    let answer = AluAnswer { value, z: flag(z)?, c: flag(c)?, s: flag(s)?, v };
    Ok(Shift { function, byte: number(byte)?, carry: flag(carry)?, answer })
}

/// The words of a text.
fn words(text: &str) -> Vec<&str> {
    text.split(' ').collect()
}

#[cfg(test)]
mod tests {
    use super::*;
    use crate::file::lines;
    use crate::stored::{path, text};

    #[test]
    fn each_shift_of_each_byte_has_a_line() {
        let text = text(&path("tests/vectors/06-shifts/shifts.txt"));
        let stored: Result<Vec<Shift>, String> = lines(&text).map(read).collect();
        let stored = stored.expect("shifts");
        for (name, function) in SHIFTS {
            for byte in 0..=255 {
                let of_byte = |shift: &Shift| (shift.function, shift.byte) == (function, byte);
                assert!(stored.iter().any(of_byte), "{name} {byte}");
            }
        }
    }

    #[test]
    fn lines_that_do_not_hold() {
        let line = "rol 129 0 : 3 0 1 0";
        assert_eq!(shift(line), Ok(()));
        for wrong in [
            "rol 129 0 : 2 0 1 0",
            "rol 129 0 : 3 1 1 0",
            "rol 129 0 : 3 0 0 0",
            "rol 129 0 : 3 0 1 1",
            "sll 129 0 : 3 0 1 0",
            "rol 129 : 3 0 1 0",
            "rol 129 2 : 3 0 1 0",
            "rol 129 0 : 3 0 1",
            "ror 129 0 : 3 0 1 0",
            "rol 385 0 : 3 0 1 0",
            "rol 129 0 3 0 1 0",
        ] {
            assert!(shift(wrong).is_err(), "{wrong}");
        }
    }
}
