//! Instructions and listings as text that members type: the proved printer and assembler.

mod explain;
mod refusal;

use crate::raw::source::{cesca_assemble, cesca_print};
use cesca_types::{Assembled, Fields, Refusal, BANK};
use explain::explained;
pub use refusal::SourceRefusal;

/// The instruction as the CESCA document spells it, with a small mnemonic and decimal numbers, as
/// `mov R0, 5`; or why there is no such instruction.
///
/// [`assemble`] reads it again, with R0 in the fields that the mnemonic doesn't show. What
/// [`encode`](crate::encode) refuses is refused, also in those fields.
pub fn print(fields: Fields) -> Result<String, Refusal> {
    // SAFETY: plain numbers in and out; the library asks nothing of them.
    unsafe { cesca_print(fields) }.outcome()
}

/// The banks that a source assembles to, or the first ground that refuses it.
///
/// A line is an instruction or macro as the CESCA document spells it, with a small mnemonic, a
/// space behind it, and a comma and a space between operands: `mov R0, 5`. A label of 1 to 12
/// letters, a colon and a space may stand before it, and a label may stand for an address. Numbers
/// are decimal, 0 to 255 without leading zeros, or 0x and two hexadecimal digits. A line feed ends
/// a line; the last may lack it. Anything else is refused, also an empty line, a comment or a
/// second space.
pub fn assemble(text: &[u8]) -> Result<Assembled, SourceRefusal> {
    let (mut opcodes, mut arguments) = ([0; BANK], [0; BANK]);
    let words = assemble_into(text, &mut opcodes, &mut arguments)?;
    Ok(Assembled { opcodes, arguments, words })
}

/// The number of words that a source assembles to, which now stand in the two banks with 00 00
/// behind them, or the first ground that refuses it.
///
/// A refusal leaves both banks as they were: first banks that aren't of 256 bytes (1), then a line
/// that is no instruction or macro (24), then a label that is missing or given twice (25), then
/// more than 256 words (26).
pub fn assemble_into(
    text: &[u8],
    opcodes: &mut [u8],
    arguments: &mut [u8],
) -> Result<usize, SourceRefusal> {
    let banks = [opcodes.len(), arguments.len()];
    decide(text, opcodes, arguments).map_err(|refusal| explained(refusal, text, banks))
}

/// The same, with the general words of a refusal.
fn decide(text: &[u8], opcodes: &mut [u8], arguments: &mut [u8]) -> Result<usize, SourceRefusal> {
    // SAFETY: each pointer comes with the length of the slice behind it, and the banks are borrowed
    // for writing during the call, so they overlap nothing.
    let answer = unsafe {
        cesca_assemble(
            text.as_ptr(),
            text.len(),
            opcodes.as_mut_ptr(),
            opcodes.len(),
            arguments.as_mut_ptr(),
            arguments.len(),
        )
    };
    answer.outcome()
}

#[cfg(test)]
mod tests {
    use super::*;

    /// `not R1, R2`, whose Rb isn't shown.
    const NOT: Fields = Fields { form: 0, d: 1, a: 2, f: 7, b: 3, imm: 0 };

    #[test]
    fn instructions_that_are_printed_or_refused() {
        assert_eq!(print(NOT), Ok("not R1, R2".to_string()));
        for fields in [Fields { d: 4, ..NOT }, Fields { a: 255, ..NOT }, Fields { b: 4, ..NOT }] {
            assert_eq!(print(fields), Err(Refusal::of_call(22)));
            assert_eq!(print(Fields { f: 16, ..fields }), Err(Refusal::of_call(22)));
        }
        assert_eq!(print(Fields { f: 16, ..NOT }), Err(Refusal::of_call(23)));
        let hlt = Fields { form: 38, d: 4, a: 4, f: 16, b: 4, imm: 9 };
        assert_eq!(print(hlt), Ok("hlt".to_string()));
    }

    #[test]
    fn a_refusal_leaves_the_banks() {
        let (mut opcodes, mut arguments) = ([7; BANK], [9; BANK]);
        let long = "hlt\n".repeat(BANK + 1);
        for (text, number) in [("halt", 24), ("jmp end", 25), (long.as_str(), 26)] {
            let refusal = assemble_into(text.as_bytes(), &mut opcodes, &mut arguments);
            assert_eq!(refusal.expect_err(text).number(), number);
            assert_eq!((opcodes, arguments), ([7; BANK], [9; BANK]));
        }
        assert_eq!(assemble_into(b"not R1, R2", &mut opcodes, &mut arguments), Ok(1));
        assert_eq!((opcodes[0], arguments[0]), (0x06, 0x70));
        assert!(opcodes[1..].iter().chain(&arguments[1..]).all(|byte| *byte == 0));
    }

    #[test]
    fn a_text_of_no_lines() {
        let empty = Assembled { opcodes: [0; BANK], arguments: [0; BANK], words: 0 };
        assert_eq!(assemble(b""), Ok(empty));
    }
}
