//! The printers and assemblers that are held against each other.

use cesca::Fields;

/// What a printer answers: the text, or the number of what is wrong.
pub type Printed = Result<String, u8>;

/// What an assembler answers: the words, or number and line of what is wrong, 0 where it has no
/// line.
pub type Answer = Result<usize, (u8, usize)>;

/// A printer.
pub type Printer = fn(Fields) -> Printed;

/// An assembler into lent banks.
pub type Assembler = fn(&[u8], &mut [u8], &mut [u8]) -> Answer;

/// The printers by name.
pub const PRINTERS: [(&str, Printer); 2] =
    [("the library", print), ("the reference", reference::print)];

/// The assemblers by name.
pub const ASSEMBLERS: [(&str, Assembler); 2] =
    [("the library", assemble), ("the reference", reference::assemble)];

/// The library's printer.
pub fn print(fields: Fields) -> Printed {
    cesca::print(fields).map_err(|refusal| refusal.number())
}

/// The library's assembler.
pub fn assemble(text: &[u8], opcodes: &mut [u8], arguments: &mut [u8]) -> Answer {
    let answer = cesca::assemble_into(text, opcodes, arguments);
    answer.map_err(|refusal| (refusal.number(), refusal.line().unwrap_or(0)))
}
