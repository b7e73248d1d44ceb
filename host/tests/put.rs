//! Instructions put into banks: one place changed, or nothing at all.

use cesca::{put, Fields, Refusal, BANK};
use reference::{Form, Instruction};

/// The bytes kept on either side of a lent bank.
const GUARD: usize = 16;

/// `sub R3, R1, R2`, whose word is `0D 22`.
const SUB: Fields = Fields { form: 0, d: 3, a: 1, f: 2, b: 2, imm: 0 };

/// A bank inside guard bytes, all of them different from their neighbours.
#[derive(Clone, Debug, PartialEq, Eq)]
struct Guarded(Vec<u8>);

impl Guarded {
    /// A bank of this length; `seed` tells two of them apart.
    fn new(length: usize, seed: u8) -> Guarded {
        let byte = |index: usize| (index as u8).wrapping_mul(37) ^ seed;
        Guarded((0..GUARD + length + GUARD).map(byte).collect())
    }

    /// The bank without its guards.
    fn bank(&mut self) -> &mut [u8] {
        let end = self.0.len() - GUARD;
        &mut self.0[GUARD..end]
    }

    /// The same bytes with one of the bank's changed.
    fn with(&self, at: u8, byte: u8) -> Guarded {
        let mut changed = self.clone();
        changed.bank()[usize::from(at)] = byte;
        changed
    }
}

/// Checks that `put` on banks of these lengths answers `wanted` and changes nothing.
fn check_refused(fields: Fields, lengths: (usize, usize), at: u8, wanted: Refusal) {
    let inputs = format!("{fields:?} at {at} in banks of {lengths:?}");
    let before = (Guarded::new(lengths.0, 0x5A), Guarded::new(lengths.1, 0xC3));
    let (mut opcodes, mut arguments) = before.clone();
    let found = put(fields, opcodes.bank(), arguments.bank(), at);
    assert_eq!(found, Err(wanted), "{inputs}");
    assert!((opcodes, arguments) == before, "{inputs}: a refusal wrote");
}

/// Checks that `put` writes this word at its place and nothing else.
fn check_put(fields: Fields, at: u8, word: [u8; 2], before: &(Guarded, Guarded)) {
    let (mut opcodes, mut arguments) = before.clone();
    let found = put(fields, opcodes.bank(), arguments.bank(), at);
    assert_eq!(found, Ok(()), "{fields:?} at {at}");
    assert!(opcodes == before.0.with(at, word[0]), "{fields:?} at {at}: opcodes");
    assert!(arguments == before.1.with(at, word[1]), "{fields:?} at {at}: arguments");
}

/// Two banks of the right length.
fn banks() -> (Guarded, Guarded) {
    (Guarded::new(BANK, 0x5A), Guarded::new(BANK, 0xC3))
}

#[test]
fn a_word_stands_at_each_address() {
    for at in 0..=255 {
        check_put(SUB, at, [0x0D, 0x22], &banks());
    }
}

#[test]
fn every_form_stands_at_each_address() {
    let banks = banks();
    for form in Form::ALL {
        for at in 0..=255 {
            let number = at ^ 0xA5;
            let [d, a, b] = [number & 3, number >> 2 & 3, number >> 4 & 3];
            let fields = Fields { form: form.row(), d, a, f: number >> 3 & 15, b, imm: number };
            let word = Instruction::from(fields).encode().expect("good fields");
            check_put(fields, at, word, &banks);
        }
    }
}

#[test]
fn forms_past_the_last_are_put_as_nop() {
    let banks = banks();
    for form in 40..=255 {
        let fields = Fields { form, d: 9, a: 9, f: 99, b: 9, imm: 9 };
        check_put(fields, form, [0xFC, 0x00], &banks);
    }
}

#[test]
fn words_put_one_after_another_stay() {
    let (mut opcodes, mut arguments) = banks();
    let words = (0..=255).map(|at: u8| [at, at.wrapping_mul(7)]);
    let forms: Vec<_> = words.map(Instruction::decode).collect();
    for (at, form) in (0..=255).zip(&forms) {
        let found = put((*form).into(), opcodes.bank(), arguments.bank(), at);
        assert_eq!(found, Ok(()), "{form:?} at {at}");
    }
    for (at, form) in forms.iter().enumerate() {
        let word = [opcodes.bank()[at], arguments.bank()[at]];
        assert_eq!(Instruction::decode(word), *form, "at {at}");
    }
}

#[test]
fn banks_of_a_wrong_length_are_refused() {
    let lengths = [0, 1, 255, 256, 257, 512];
    let pairs = lengths.into_iter().flat_map(|left| lengths.map(|right| (left, right)));
    for lengths in pairs.filter(|lengths| *lengths != (BANK, BANK)) {
        for at in [0, 1, 128, 254, 255] {
            check_refused(SUB, lengths, at, Refusal::of_call(1));
        }
    }
}

#[test]
fn bad_numbers_are_refused() {
    for at in 0..=255 {
        for bad in [4, 5, 128, 255] {
            let register = |fields| check_refused(fields, (BANK, BANK), at, Refusal::of_call(22));
            register(Fields { d: bad, ..SUB });
            register(Fields { a: bad, ..SUB });
            register(Fields { b: bad, ..SUB });
            let function = Fields { f: bad.max(16), ..SUB };
            check_refused(function, (BANK, BANK), at, Refusal::of_call(23));
        }
    }
}

#[test]
fn the_lowest_number_comes_first() {
    let function = Fields { f: 16, ..SUB };
    let register = Fields { b: 4, ..SUB };
    let both = Fields { b: 4, ..function };
    for at in [0, 77, 255] {
        for lengths in [(0, 0), (255, 256), (256, 255), (256, 257), (257, 256), (0, 512)] {
            for fields in [function, register, both] {
                check_refused(fields, lengths, at, Refusal::of_call(1));
            }
        }
        check_refused(both, (BANK, BANK), at, Refusal::of_call(22));
    }
}

#[test]
fn every_form_is_refused_as_in_the_reference() {
    for form in Form::ALL {
        for (d, a, f, b) in [(4, 0, 0, 0), (0, 4, 0, 0), (0, 0, 16, 0), (0, 0, 0, 4)] {
            let fields = Fields { form: form.row(), d, a, f, b, imm: 1 };
            if let Err(refusal) = Instruction::from(fields).encode() {
                check_refused(fields, (BANK, BANK), 200, refusal);
            }
        }
    }
}
