//! Words decoded and encoded by the letters of their form's machine code.

use super::Form;
use cesca_types::{Fields, Refusal, BANK};
use std::sync::LazyLock;

/// The highest register number.
const LAST_REGISTER: u8 = 3;

/// The highest function number.
const LAST_FUNCTION: u8 = 15;

/// The instruction of every word, the opcode in the high byte of its place.
static INSTRUCTIONS: LazyLock<Vec<Instruction>> =
    LazyLock::new(|| (0..=u16::MAX).map(u16::to_be_bytes).map(Instruction::decode).collect());

/// A form with its fields; a field that the form doesn't have is 0 after decoding.
#[derive(Clone, Copy, Debug, PartialEq, Eq)]
pub struct Instruction {
    /// The form.
    pub form: Form,
    /// The register Rd.
    pub d: u8,
    /// The register Ra.
    pub a: u8,
    /// The ALU function's number.
    pub f: u8,
    /// The register Rb.
    pub b: u8,
    /// The immediate value or the address.
    pub imm: u8,
}

impl Instruction {
    /// The instruction that a word stands for, opcode first.
    pub fn decode(word: [u8; 2]) -> Instruction {
        let word = u16::from_be_bytes(word);
        let form = Form::ALL.into_iter().find(|form| form.matches(word));
        let form = form.expect("every opcode is assigned");
        Instruction {
            form,
            d: form.read("D", word),
            a: form.read("A", word),
            f: form.read("F", word),
            b: form.read("B", word),
            imm: form.read("I@", word),
        }
    }

    /// The same, looked up in a table that is made once.
    pub(super) fn of_word(word: [u8; 2]) -> Instruction {
        INSTRUCTIONS[usize::from(u16::from_be_bytes(word))]
    }

    /// The word that stands for the instruction, free bits 0, or why there is none.
    pub fn encode(self) -> Result<[u8; 2], Refusal> {
        self.check()?;
        let Instruction { form, d, a, f, b, imm } = self;
        let registers = form.write("D", d) | form.write("A", a) | form.write("B", b);
        let word = form.mask("1") | registers | form.write("F", f) | form.write("I@", imm);
        Ok(word.to_be_bytes())
    }

    /// Puts the word at an address of the two banks, or says why not and changes nothing.
    pub fn put(self, opcodes: &mut [u8], arguments: &mut [u8], at: u8) -> Result<(), Refusal> {
        if opcodes.len() != BANK || arguments.len() != BANK {
            return Err(Refusal::of_call(1));
        }
        let [opcode, argument] = self.encode()?;
        opcodes[usize::from(at)] = opcode;
        arguments[usize::from(at)] = argument;
        Ok(())
    }

    /// The same instruction with 0 in every field that its form doesn't have.
    pub fn trimmed(self) -> Instruction {
        let kept = |letters, field| if self.form.has(letters) { field } else { 0 };
        Instruction {
            form: self.form,
            d: kept("D", self.d),
            a: kept("A", self.a),
            f: kept("F", self.f),
            b: kept("B", self.b),
            imm: kept("I@", self.imm),
        }
    }

    /// Whether the form's registers, and then its function, are numbers that there are.
    pub(super) fn check(self) -> Result<(), Refusal> {
        let own = self.trimmed();
        if [own.d, own.a, own.b].into_iter().any(|register| register > LAST_REGISTER) {
            Err(Refusal::of_call(22))
        } else if own.f > LAST_FUNCTION {
            Err(Refusal::of_call(23))
        } else {
            Ok(())
        }
    }
}

impl From<Fields> for Instruction {
    fn from(fields: Fields) -> Instruction {
        let Fields { form, d, a, f, b, imm } = fields;
        Instruction { form: Form::from_row(form), d, a, f, b, imm }
    }
}

impl From<Instruction> for Fields {
    fn from(instruction: Instruction) -> Fields {
        let Instruction { form, d, a, f, b, imm } = instruction;
        Fields { form: form.row(), d, a, f, b, imm }
    }
}

#[cfg(test)]
mod tests;
