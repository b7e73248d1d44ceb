//! Instructions spelled as in the CESCA document, with decimal numbers.

use super::{Form, Function, Instruction};
use std::fmt::{self, Display, Formatter};

impl Function {
    /// The mnemonic with its operands, as the function table prints it.
    fn mnemonic(self) -> &'static str {
        match self {
            Function::Mov => "mov Rd, Rb",
            Function::Add => "add Rd, Ra, Rb",
            Function::Sub => "sub Rd, Ra, Rb",
            Function::Addc => "addc Rd, Ra, Rb",
            Function::Subb => "subb Rd, Ra, Rb",
            Function::And => "and Rd, Ra, Rb",
            Function::Or => "or Rd, Ra, Rb",
            Function::Not => "not Rd, Ra",
            Function::Xor => "xor Rd, Ra, Rb",
            Function::Nand => "nand Rd, Ra, Rb",
            Function::Nor => "nor Rd, Ra, Rb",
            Function::Xnor => "xnor Rd, Ra, Rb",
            Function::Sll => "sll Rd, Ra",
            Function::Srl => "srl Rd, Ra",
            Function::Sra => "sra Rd, Ra",
            Function::Rol => "rol Rd, Ra",
        }
    }
}

impl Instruction {
    /// The mnemonic with the names of its operands.
    fn mnemonic(self) -> String {
        match self.form {
            Form::Alu => self.function().mnemonic().to_string(),
            Form::AluNone => self.function().mnemonic().replace("Rd", "NONE"),
            form => form.mnemonic().to_string(),
        }
    }
}

impl Display for Instruction {
    fn fmt(&self, out: &mut Formatter<'_>) -> fmt::Result {
        let registers = [("Rd", self.d), ("Ra", self.a), ("Rb", self.b)];
        let named = registers.into_iter().fold(self.mnemonic(), |text, (name, number)| {
            text.replace(name, &format!("R{number}"))
        });
        let number = self.imm.to_string();
        out.pad(&named.replace("Imm8", &number).replace("Addr8", &number))
    }
}

#[cfg(test)]
mod tests {
    use super::*;

    /// Checks the text of a word.
    fn check(word: [u8; 2], text: &str) {
        assert_eq!(Instruction::decode(word).to_string(), text, "word {word:02X?}");
    }

    #[test]
    fn operands_of_every_kind() {
        check([0x30, 0x05], "mov R0, 5");
        check([0x0D, 0x22], "sub R3, R1, R2");
        check([0x04, 0x03], "mov R1, R3");
        check([0x06, 0x73], "not R1, R2");
        check([0x22, 0x21], "sub NONE, R2, R1");
        check([0x16, 0xFF], "add R1, R2, 255");
        check([0x2C, 0x80], "mask IN, 128");
        check([0x57, 0x40], "mov [64], R3");
        check([0x59, 0x03], "mov [R3], R1");
        check([0x79, 0x00], "mov R2, [R1]");
        check([0x97, 0x00], "swap R1, R3");
        check([0xA6, 0x00], "jmp R2");
        check([0xD8, 0x0B], "jlt 11");
        check([0xE0, 0x38], "mov LCDcmd, 56");
        check([0xEC, 0x10], "mov LCD, [16]");
        check([0xF8, 0x00], "hlt");
    }
}
