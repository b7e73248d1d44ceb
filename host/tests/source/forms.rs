//! Every form printed, with fields in and over their range.

use crate::sides::{Printed, PRINTERS};
use cesca::Fields;
use reference::Form;

/// Register numbers on both sides of the highest.
const REGISTERS: [u8; 5] = [0, 2, 3, 4, 255];

/// Immediate values of each length.
const NUMBERS: [u8; 6] = [0, 9, 10, 99, 100, 255];

/// What a form with each of these registers, any function number and some immediate is printed as.
fn each(form: u8, check: impl Fn(Fields, Printed)) {
    for [d, a, b] in triples(REGISTERS) {
        for f in (0..=17).chain([128, 255]) {
            let imm = NUMBERS[usize::from(d ^ a ^ b ^ f) % NUMBERS.len()];
            let fields = Fields { form, d, a, f, b, imm };
            check(fields, agreed(fields));
        }
    }
}

/// All rows of three of these numbers.
fn triples(numbers: [u8; 5]) -> impl Iterator<Item = [u8; 3]> {
    let pairs = numbers.into_iter().flat_map(move |first| numbers.map(|second| [first, second]));
    pairs.flat_map(move |[first, second]| numbers.map(|third| [first, second, third]))
}

/// What both printers answer.
fn agreed(fields: Fields) -> Printed {
    let [library, reference] = PRINTERS.map(|(_, printer)| printer(fields));
    assert_eq!(library, reference, "{fields:?}");
    library
}

/// The number of what is wrong with a form's own fields: a register over 3, then the function.
fn wrong(form: Form, fields: Fields) -> Option<u8> {
    let Fields { d, a, f, b, .. } = fields;
    let registers = [("D", d), ("A", a), ("B", b)];
    let over = registers.into_iter().any(|(letter, number)| form.has(letter) && number > 3);
    match (over, form.has("F") && f > 15) {
        (true, _) => Some(22),
        (false, true) => Some(23),
        (false, false) => None,
    }
}

#[test]
fn bad_numbers_are_refused_hidden_ones_too_and_registers_first() {
    for form in Form::ALL {
        each(form.row(), |fields, printed| {
            assert_eq!(printed.err(), wrong(form, fields), "{fields:?}");
        });
    }
}

#[test]
fn every_number_is_printed_in_decimal() {
    for form in Form::ALL.into_iter().filter(|form| form.has("I@")) {
        for imm in 0..=255 {
            let printed = agreed(Fields { form: form.row(), imm, ..Fields::default() });
            let printed = printed.expect("a good form");
            let digits = printed.split([' ', '[', ']', ',']).any(|part| part == imm.to_string());
            assert!(digits, "{imm} in {printed:?}");
        }
    }
}

#[test]
fn forms_past_the_last_are_nop() {
    for form in 39..=255 {
        each(form, |fields, printed| assert_eq!(printed, Ok("nop".to_string()), "{fields:?}"));
    }
}

#[test]
fn hidden_registers_are_judged() {
    let alu = |d, a, f, b| agreed(Fields { form: 0, d, a, f, b, imm: 0 });
    assert_eq!(alu(0, 4, 0, 0), Err(22), "mov shows no Ra");
    assert_eq!(alu(0, 0, 7, 4), Err(22), "not shows no Rb");
    assert_eq!(alu(0, 0, 15, 4), Err(22), "rol shows no Rb");
    assert_eq!(alu(0, 0, 16, 4), Err(22), "22 before 23");
    assert_eq!(alu(0, 0, 16, 3), Err(23));
    assert_eq!(alu(1, 3, 0, 2), Ok("mov R1, R2".to_string()));
    assert_eq!(alu(1, 3, 12, 2), Ok("sll R1, R3".to_string()));
}
