//! Sheets and routine lists drawn for banks: the proved drawer.

mod explain;

use crate::lengths::of_buffers;
use crate::raw::draw::cesca_draw;
use cesca_types::{Drawing, Refusal, MOST_LIST, SHEET};
use explain::explained;

/// The sheet and the routine list drawn for these banks, or the first ground that refuses it.
///
/// The sheet describes what successors and calls reach from address 0, and marks V wherever some
/// admitted sheet could mark it. Routines are numbered by their entry addresses. Each need is the
/// least that any admitted sheet gives the routine with that entry. What is drawn is admitted.
/// Where no sheet and list at all would be admitted (27), the refusal tells what stands in the way.
///
/// ```
/// # fn main() -> Result<(), Box<dyn std::error::Error>> {
/// let banks = cesca::assemble(b"call twice\nhlt\ntwice: add R0, R0, R0\nret\n")?;
/// let drawing = cesca::draw(&banks.opcodes, &banks.arguments)?;
/// assert_eq!(drawing.routines(), 2);
/// assert_eq!(drawing.list, [0, 1, 2, 0]); // routine 0 at 0 needs 1 byte, routine 1 at 2 none
/// assert_eq!(drawing.sheet[..8], [0x00, 0x80, 0x00, 0x80, 0x00, 0x81, 0x00, 0xC1]);
///
/// let endless = cesca::assemble(b"loop: push R0\njmp loop\n")?;
/// let refusal = cesca::draw(&endless.opcodes, &endless.arguments).unwrap_err();
/// let reason = "address 0 is reached at depth 0 and, by jmp at 1, at depth 1";
/// assert!(refusal.number() == 27 && refusal.words().ends_with(reason));
/// # Ok(())
/// # }
/// ```
pub fn draw(opcodes: &[u8], arguments: &[u8]) -> Result<Drawing, Refusal> {
    let (mut sheet, mut list) = ([0; SHEET], [0; MOST_LIST]);
    let routines = draw_into(opcodes, arguments, &mut sheet, &mut list);
    let routines = routines.map_err(|refusal| explained(refusal, opcodes, arguments))?;
    Ok(Drawing { sheet, list: list[..2 * routines].to_vec() })
}

/// The number of routines drawn for these banks, which now stand in the list with 0 behind them,
/// as the sheet stands in its buffer; or the first ground that refuses it.
///
/// A refusal leaves both buffers as they were: first banks that aren't of 256 bytes (1), then a
/// sheet buffer that isn't of 512 (2), then a list buffer that isn't of 128 (3), then banks with
/// which no sheet and list at all would be admitted (27). What stands in the way of them takes time
/// to find, so [`draw`] alone tells it.
pub fn draw_into(
    opcodes: &[u8],
    arguments: &[u8],
    sheet: &mut [u8],
    list: &mut [u8],
) -> Result<usize, Refusal> {
    let lengths = [opcodes.len(), arguments.len(), sheet.len(), list.len()];
    decide(opcodes, arguments, sheet, list).map_err(|refusal| sized(refusal, lengths))
}

/// The same, with the general words of a refusal.
fn decide(
    opcodes: &[u8],
    arguments: &[u8],
    sheet: &mut [u8],
    list: &mut [u8],
) -> Result<usize, Refusal> {
    // SAFETY: each pointer comes with the length of the slice behind it, and sheet and list are
    // borrowed for writing during the call, so they overlap nothing.
    let answer = unsafe {
        cesca_draw(
            opcodes.as_ptr(),
            opcodes.len(),
            arguments.as_ptr(),
            arguments.len(),
            sheet.as_mut_ptr(),
            sheet.len(),
            list.as_mut_ptr(),
            list.len(),
        )
    };
    answer.outcome()
}

/// The refusal with the length that is wrong: the general words of 2 and 3 are about a listing's
/// sheet and list, and not about buffers.
fn sized(refusal: Refusal, lengths: [usize; 4]) -> Refusal {
    match of_buffers(refusal.number(), lengths) {
        Some(words) => refusal.with_words(words),
        None => refusal,
    }
}

#[cfg(test)]
mod tests {
    use super::*;
    use cesca_types::BANK;

    /// Banks with `hlt` at address 0.
    fn halting() -> [[u8; BANK]; 2] {
        let mut opcodes = [0; BANK];
        opcodes[0] = 0xF8;
        [opcodes, [0; BANK]]
    }

    #[test]
    fn the_shortest_program() {
        let [opcodes, arguments] = halting();
        let (mut sheet, mut list) = ([7; SHEET], [9; MOST_LIST]);
        assert_eq!(draw_into(&opcodes, &arguments, &mut sheet, &mut list), Ok(1));
        assert_eq!(sheet[..2], [0x00, 0x80]);
        assert!(sheet[2..].iter().chain(&list).all(|byte| *byte == 0));
        let drawing = Drawing { sheet, list: vec![0, 0] };
        assert_eq!(draw(&opcodes, &arguments), Ok(drawing));
    }

    #[test]
    fn a_refusal_leaves_the_buffers() {
        let ([opcodes, arguments], blank) = (halting(), [0; BANK]);
        let check = |banks: [&[u8]; 2], lengths: [usize; 2], shown: &str| {
            let (mut sheet, mut list) = (vec![7; lengths[0]], vec![9; lengths[1]]);
            let refusal = draw_into(banks[0], banks[1], &mut sheet, &mut list).expect_err(shown);
            assert_eq!((refusal.to_string().as_str(), refusal.place()), (shown, None));
            assert_eq!((sheet, list), (vec![7; lengths[0]], vec![9; lengths[1]]), "{shown}");
        };
        let short = [&opcodes[..255], &arguments[..]];
        check(short, [0, 0], "1: there are 255 opcodes and 256 arguments, not 256 of each");
        let whole = [&opcodes[..], &arguments[..]];
        check(whole, [513, 4], "2: the sheet's buffer has 513 bytes, not 512");
        check(whole, [512, 4], "3: the list's buffer has 4 bytes, not 128");
        let none = "27: no sheet and list at all would be admitted with these banks";
        check([&blank, &blank], [512, 128], none);
    }
}
