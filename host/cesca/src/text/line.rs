//! The lines of a listing's text.

use super::instruction::instruction_text;
use super::numbers::{byte, decimal, sheet_word};
use crate::calls::decode;
use crate::Routine;
use std::ops::RangeInclusive;

/// What begins a comment elsewhere.
const COMMENTS: [&str; 3] = [";", "#", "//"];

/// The shapes of a line.
const SHAPES: &str = "a line is `routine 1 at 4 need 1`, or an address, its sheet word, two bytes \
                      and their instruction, as `0 8000 30 05 mov R0, 5`";

/// What a line says.
pub enum Line {
    /// Nothing.
    Blank,
    /// A routine and its number.
    Routine(u8, Routine),
    /// Addresses with their sheet words, and the word that stands at each, opcode first.
    Words(Vec<(u8, u16)>, [u8; 2]),
}

/// What a line says, or what is wrong with it.
pub fn read(line: &str) -> Result<Line, String> {
    if let Some(mark) = COMMENTS.into_iter().find(|mark| line.contains(mark)) {
        return Err(format!("{mark:?} begins no comment here: a listing's text has none"));
    }
    let items: Vec<&str> = line.split_whitespace().collect();
    match items[..] {
        [] => Ok(Line::Blank),
        ["routine", number, "at", entry, "need", need] => {
            let number = decimal("routine", number)?;
            let (entry, need) = (decimal("entry", entry)?, decimal("need", need)?);
            Ok(Line::Routine(number, Routine { entry, need }))
        }
        ["routine", ..] => Err(SHAPES.to_string()),
        [addresses, sheet, opcode, argument, ..] => {
            let sheet = sheet_words(range(addresses)?, sheet)?;
            let word = [byte(opcode)?, byte(argument)?];
            expect(word, &items[4..].join(" "))?;
            Ok(Line::Words(sheet, word))
        }
        _ => Err(SHAPES.to_string()),
    }
}

/// The addresses of a line, one or the first and the last.
fn range(addresses: &str) -> Result<RangeInclusive<u8>, String> {
    let (first, last) = addresses.split_once('-').unwrap_or((addresses, addresses));
    let (first, last) = (decimal("address", first)?, decimal("address", last)?);
    if last < first {
        return Err(format!("the addresses {addresses} end before they begin"));
    }
    Ok(first..=last)
}

/// Each address with its sheet word, whose depth is one higher at each if there is a +.
fn sheet_words(addresses: RangeInclusive<u8>, sheet: &str) -> Result<Vec<(u8, u16)>, String> {
    let (digits, rise) = sheet.strip_suffix('+').map_or((sheet, 0), |digits| (digits, 1));
    let [high, lowest] = sheet_word(digits)?.to_be_bytes();
    let first = *addresses.start();
    let words = addresses.map(|at| {
        let depth = lowest.checked_add(rise * (at - first));
        let word = depth.map(|depth| (at, u16::from_be_bytes([high, depth])));
        word.ok_or_else(|| format!("the depth would run over 255 at address {at}"))
    });
    words.collect()
}

/// Success if the instruction is that of the word.
fn expect(word: [u8; 2], instruction: &str) -> Result<(), String> {
    let meant = instruction_text(decode(word));
    let [opcode, argument] = word;
    match instruction {
        "" => Err(format!("{opcode:02X} {argument:02X} lacks its instruction, `{meant}`")),
        _ if instruction != meant => {
            let written = instruction.escape_debug();
            Err(format!("{opcode:02X} {argument:02X} is `{meant}`, not `{written}`"))
        }
        _ => Ok(()),
    }
}
