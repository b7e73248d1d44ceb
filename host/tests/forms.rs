//! All forms with good and bad fields, the library beside the reference.

use cesca::{decode, encode, facts, Class, Effect, Facts, Fields};
use reference::{Form, Instruction};

/// The letters of Rd, Ra, function, Rb and immediate or address in a machine code.
const LETTERS: [&str; 5] = ["D", "A", "F", "B", "I@"];

/// For each of these fields, values on both sides of the highest good one.
const EDGES: [&[u8]; 5] =
    [&[0, 3, 4, 255], &[0, 3, 4, 255], &[0, 15, 16, 255], &[0, 3, 4, 255], &[0, 255]];

/// For each of these fields, the good values; of the last one a few.
const GOOD: [&[u8]; 5] = [
    &[0, 1, 2, 3],
    &[0, 1, 2, 3],
    &[0, 1, 2, 3, 4, 5, 6, 7, 8, 9, 10, 11, 12, 13, 14, 15],
    &[0, 1, 2, 3],
    &[0, 1, 127, 128, 255],
];

/// Every byte.
fn bytes() -> Vec<u8> {
    (0..=255).collect()
}

/// Calls `check` on a form with every combination of these values of its fields.
fn combine(form: u8, values: [&[u8]; 5], check: impl Fn(Fields)) {
    let total = values.iter().map(|list| list.len()).product();
    for index in 0..total {
        let mut rest: usize = index;
        let [d, a, f, b, imm] = values.map(|list| {
            let value = list[rest % list.len()];
            rest /= list.len();
            value
        });
        check(Fields { form, d, a, f, b, imm });
    }
}

/// Checks the encoder on these fields, and the way back when there is a word.
fn check_encoding(fields: Fields) {
    let instruction = Instruction::from(fields);
    let word = encode(fields);
    assert_eq!(word, instruction.encode(), "{fields:?}");
    if let Ok(word) = word {
        let wanted = Fields::from(instruction.trimmed());
        assert_eq!(decode(word), wanted, "{fields:?} as {word:02X?}");
    }
}

/// Checks the facts of these fields.
fn check_facts(fields: Fields) {
    assert_eq!(facts(fields), Instruction::from(fields).facts(), "{fields:?}");
}

#[test]
fn every_good_form_has_a_word_that_decodes_to_it() {
    for form in Form::ALL {
        combine(form.row(), GOOD, |fields| {
            assert!(encode(fields).is_ok(), "{fields:?}");
            check_encoding(fields);
        });
    }
}

#[test]
fn one_field_swept_beside_edges() {
    let bytes = bytes();
    for form in Form::ALL {
        for swept in 0..EDGES.len() {
            let mut values = EDGES;
            values[swept] = &bytes;
            combine(form.row(), values, check_encoding);
        }
    }
}

#[test]
fn two_fields_of_the_form_swept_beside_edges() {
    let bytes = bytes();
    for form in Form::ALL {
        let own = |field: &usize| form.has(LETTERS[*field]);
        // The fields that the form doesn't have stay at a bad value.
        let edges = [0, 1, 2, 3, 4].map(|field| if own(&field) { EDGES[field] } else { &[255] });
        for second in (0..edges.len()).filter(own) {
            for first in (0..second).filter(own) {
                let mut values = edges;
                values[first] = &bytes;
                values[second] = &bytes;
                combine(form.row(), values, check_encoding);
            }
        }
    }
}

#[test]
fn bad_registers_are_refused_before_a_bad_function() {
    let bad = |form: Form, d, a, f, b| {
        let fields = Fields { form: form.row(), d, a, f, b, imm: 0 };
        encode(fields).map_err(|refusal| refusal.number())
    };
    for form in [Form::Alu, Form::AluNone] {
        assert_eq!(bad(form, 0, 0, 16, 0), Err(23), "{form:?}");
        assert_eq!(bad(form, 0, 4, 16, 0), Err(22), "{form:?}");
        assert_eq!(bad(form, 0, 0, 16, 4), Err(22), "{form:?}");
        assert_eq!(bad(form, 0, 0, 7, 4), Err(22), "{form:?} of not, which hides Rb");
        assert_eq!(bad(form, 0, 4, 0, 0), Err(22), "{form:?} of mov, which hides Ra");
    }
    assert_eq!(bad(Form::Alu, 4, 0, 16, 0), Err(22));
    assert_eq!(bad(Form::AluNone, 4, 0, 16, 0), Err(23), "it has no Rd");
    assert_eq!(bad(Form::StoreAt, 0, 0, 16, 4), Err(22));
    assert_eq!(bad(Form::StoreAt, 0, 0, 16, 3), Ok([0x58, 0x03]), "it has no function");
}

#[test]
fn facts_take_any_function_number() {
    let mut values = GOOD;
    let bytes = bytes();
    values[2] = &bytes;
    for form in Form::ALL {
        combine(form.row(), values, check_facts);
    }
}

#[test]
fn facts_take_register_numbers_as_they_stand() {
    let bytes = bytes();
    for form in Form::ALL {
        for register in [0, 1, 3] {
            let mut values = EDGES;
            values[register] = &bytes;
            combine(form.row(), values, check_facts);
        }
    }
}

#[test]
fn forms_past_the_last_are_nop() {
    let nop = Facts {
        cycles: 8,
        class: Class::Next,
        operand: 0,
        overflow: Effect::Leaves,
        tests: false,
        roll: false,
    };
    for form in 39..=255 {
        combine(form, EDGES, |fields| {
            assert_eq!(encode(fields), Ok([0xFC, 0x00]), "{fields:?}");
            assert_eq!(facts(fields), nop, "{fields:?}");
        });
    }
}
