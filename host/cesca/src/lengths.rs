//! What 1, 2 and 3 say of wrong lengths, in words. The lengths are those of opcodes, arguments,
//! sheet and list.

use crate::text::bytes;
use cesca_types::{BANK, MOST_LIST, SHEET};

/// What one of these numbers says of a listing's parts.
pub fn of_parts(number: u8, lengths: [usize; 4]) -> Option<String> {
    let [opcodes, arguments, sheet, list] = lengths;
    match number {
        1 => Some(banks(opcodes, arguments)),
        2 => Some(format!("the sheet has {}, not {SHEET}", bytes(sheet))),
        3 => {
            let list = bytes(list);
            Some(format!("the routine list has {list}, not an even number from 2 to {MOST_LIST}"))
        }
        _ => None,
    }
}

/// What one of these numbers says of buffers, of which the list's has room for any list.
pub fn of_buffers(number: u8, lengths: [usize; 4]) -> Option<String> {
    let [opcodes, arguments, sheet, list] = lengths;
    match number {
        1 => Some(banks(opcodes, arguments)),
        2 => Some(format!("the sheet's buffer has {}, not {SHEET}", bytes(sheet))),
        3 => Some(format!("the list's buffer has {}, not {MOST_LIST}", bytes(list))),
        _ => None,
    }
}

/// What 1 says.
fn banks(opcodes: usize, arguments: usize) -> String {
    format!("there are {opcodes} opcodes and {arguments} arguments, not {BANK} of each")
}
