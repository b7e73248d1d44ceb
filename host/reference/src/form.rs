//! The instruction table, row for row as the CESCA document prints it.

/// Makes the forms and their rows out of the table: name, mnemonic, machine code, cycles.
macro_rules! instruction_table {
    ($($form:ident $mnemonic:literal $code:literal $cycles:literal)*) => {
        /// The forty forms, in the instruction table's order.
        #[derive(Clone, Copy, Debug, PartialEq, Eq)]
        pub enum Form {
            $(#[doc = concat!("`", $mnemonic, "`: `", $code, "`.")] $form,)*
        }

        impl Form {
            /// All forms in order.
            pub const ALL: [Form; 40] = [$(Form::$form),*];

            /// The mnemonic with its operands, as the table prints it.
            pub fn mnemonic(self) -> &'static str {
                match self { $(Form::$form => $mnemonic,)* }
            }

            /// The machine code, opcode and argument, as the table prints it.
            pub fn code(self) -> &'static str {
                match self { $(Form::$form => $code,)* }
            }

            /// The clock cycles of one execution.
            pub fn cycles(self) -> u8 {
                match self { $(Form::$form => $cycles,)* }
            }
        }
    };
}

// Rows that the document prints with a short or missing second byte have all eight letters here.
instruction_table! {
    Alu        "ALU* Rd, Ra, Rb"   "0000DDAA FFFFXXBB" 4
    AddImm     "add Rd, Ra, Imm8"  "0001DDAA IIIIIIII" 4
    AluNone    "ALU* NONE, Ra, Rb" "001000AA FFFFXXBB" 3
    CmpImm     "cmp Ra, Imm8"      "001001AA IIIIIIII" 3
    MaskImm    "mask Ra, Imm8"     "001010AA IIIIIIII" 3
    MaskIn     "mask IN, Imm8"     "001011XX IIIIIIII" 5

    MovImm     "mov Rd, Imm8"      "0011DDXX IIIIIIII" 3
    MovIn      "mov Rd, IN"        "0100DDXX XXXXXXXX" 4
    Ack        "mov IN, Ack"       "010100XX XXXXXXXX" 3
    Store      "mov [Addr8], Ra"   "010101AA @@@@@@@@" 4
    StoreAt    "mov [Rb], Ra"      "010110AA XXXXXXBB" 5
    Push       "push Ra"           "010111AA XXXXXXXX" 5
    Load       "mov Rd, [Addr8]"   "0110DDXX @@@@@@@@" 4
    LoadAt     "mov Rd, [Ra]"      "0111DDAA XXXXXXXX" 4
    Pop        "pop Rd"            "1000DDXX XXXXXXXX" 4
    Swap       "swap Rd, Ra"       "1001DDAA XXXXXXXX" 5

    Jmp        "jmp Addr8"         "101000XX @@@@@@@@" 3
    JmpReg     "jmp Ra"            "101001AA XXXXXXXX" 3
    Call       "call Addr8"        "101010XX @@@@@@@@" 6
    Ret        "ret"               "101011XX XXXXXXXX" 4
    Jz         "jz Addr8"          "101100XX @@@@@@@@" 3
    Jnz        "jnz Addr8"         "101101XX @@@@@@@@" 3
    Jc         "jc Addr8"          "101110XX @@@@@@@@" 3
    Jnc        "jnc Addr8"         "101111XX @@@@@@@@" 3
    Jv         "jv Addr8"          "110000XX @@@@@@@@" 3
    Jnv        "jnv Addr8"         "110001XX @@@@@@@@" 3
    Jlz        "jlz Addr8"         "110010XX @@@@@@@@" 3
    Jp         "jp Addr8"          "110011XX @@@@@@@@" 3
    Jgz        "jgz Addr8"         "110100XX @@@@@@@@" 3
    Jleu       "jleu Addr8"        "110101XX @@@@@@@@" 3
    Jlt        "jlt Addr8"         "110110XX @@@@@@@@" 3
    Jle        "jle Addr8"         "110111XX @@@@@@@@" 3

    LcdCommand "mov LCDcmd, Imm8"  "111000XX IIIIIIII" 3
    LcdImm     "mov LCD, Imm8"     "111001XX IIIIIIII" 3
    LcdReg     "mov LCD, Ra"       "111010AA XXXXXXXX" 3
    LcdLoad    "mov LCD, [Addr8]"  "111011XX @@@@@@@@" 4
    OutReg     "mov OUT, Ra"       "111100AA XXXXXXXX" 3
    OutLoad    "mov OUT, [Addr8]"  "111101XX @@@@@@@@" 4
    Hlt        "hlt"               "111110XX XXXXXXXX" 2
    Nop        "nop"               "111111XX XXXXXXXX" 8
}

impl Form {
    /// The form in this row of the table, counted from 0; the last one past the end.
    pub fn from_row(row: u8) -> Form {
        Form::ALL.get(usize::from(row)).copied().unwrap_or(Form::Nop)
    }

    /// The row of the table, counted from 0.
    pub fn row(self) -> u8 {
        self as u8
    }

    /// The bits of a word, opcode in the high byte, that stand under one of these letters.
    pub fn mask(self, letters: &str) -> u16 {
        self.places(letters).map(|place| 1 << place).sum()
    }

    /// Whether the machine code has one of these letters.
    pub fn has(self, letters: &str) -> bool {
        self.mask(letters) != 0
    }

    /// The places in a word under one of these letters, lowest bit first.
    fn places(self, letters: &str) -> impl Iterator<Item = u32> + '_ {
        let code = self.code().bytes().rev().filter(|letter| *letter != b' ');
        let under = |letter: &u8| letters.as_bytes().contains(letter);
        (0..).zip(code).filter(move |(_, letter)| under(letter)).map(|(place, _)| place)
    }

    /// Whether a word has this form's fixed bits.
    pub(super) fn matches(self, word: u16) -> bool {
        word & self.mask("01") == self.mask("1")
    }

    /// The number that stands in a word under these letters.
    pub(super) fn read(self, letters: &str, word: u16) -> u8 {
        let bits = self.places(letters).map(|place| (word >> place & 1) as u8);
        (0..).zip(bits).map(|(bit, value)| value << bit).sum()
    }

    /// A word with this number under these letters and 0 elsewhere.
    pub(super) fn write(self, letters: &str, number: u8) -> u16 {
        let places = self.places(letters);
        (0..).zip(places).map(|(bit, place)| u16::from(number >> bit & 1) << place).sum()
    }
}

#[cfg(test)]
mod tests {
    use super::*;

    #[test]
    fn each_opcode_has_one_form() {
        for opcode in 0..=255 {
            let word = u16::from_be_bytes([opcode, 0]);
            let forms = Form::ALL.into_iter().filter(|form| form.matches(word));
            assert_eq!(forms.count(), 1, "opcode {opcode:02X}");
        }
    }

    #[test]
    fn every_row_has_sixteen_bits() {
        for form in Form::ALL {
            assert_eq!(form.mask("01XDAFBI@"), 0xFFFF, "{}", form.mnemonic());
        }
    }
}
