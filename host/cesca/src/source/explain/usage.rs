//! What a mnemonic takes: asked of the library, by lines that it takes or refuses. 24.

use super::due::Due::{self, Address, AtAddress, AtRegister, Name, Number, Register};
use super::quote::shown;
use crate::source::decide;
use cesca_types::BANK;

const NONE: Due = Name("NONE");
const IN: Due = Name("IN");
const ACK: Due = Name("Ack");
const OUT: Due = Name("OUT");
const LCD: Due = Name("LCD");
const LCD_COMMAND: Due = Name("LCDcmd");
const INIT: Due = Name("Init");
const CLR: Due = Name("Clr");

/// The operands that go together in some instruction or macro, those alike behind one another.
const USAGES: [&[Due]; 26] = [
    &[],
    &[Register],
    &[Address],
    &[Register, Register],
    &[Register, Number],
    &[Register, IN],
    &[Register, AtAddress],
    &[Register, AtRegister],
    &[NONE, Register],
    &[IN, Number],
    &[IN, ACK],
    &[AtAddress, Register],
    &[AtRegister, Register],
    &[OUT, Register],
    &[OUT, AtAddress],
    &[LCD, Register],
    &[LCD, Number],
    &[LCD, AtAddress],
    &[LCD_COMMAND, Number],
    &[LCD_COMMAND, INIT],
    &[LCD_COMMAND, CLR],
    &[Register, Register, Register],
    &[Register, Register, Number],
    &[Register, Register, Address],
    &[Register, Number, Address],
    &[NONE, Register, Register],
];

/// The most letters of a word that the library is asked about as a mnemonic.
const MOST: usize = 12;

/// Whether a line is an instruction or macro, if the label that it uses is given elsewhere.
pub fn is_line(line: &str) -> bool {
    let answer = decide(line.as_bytes(), &mut [0; BANK], &mut [0; BANK]);
    answer.map_or_else(|refusal| refusal.number() != 24, |_| true)
}

/// The line with this mnemonic and these operands.
pub fn spelled(mnemonic: &str, operands: &[&str]) -> String {
    let space = if operands.is_empty() { "" } else { " " };
    format!("{mnemonic}{space}{}", operands.join(", "))
}

/// Whether there are lines with this mnemonic.
pub fn is_known(mnemonic: &str) -> bool {
    let small = mnemonic.bytes().all(|byte| byte.is_ascii_lowercase());
    small && mnemonic.len() <= MOST && USAGES.iter().any(|usage| is_usage(mnemonic, usage))
}

/// What is wrong with so many operands, if other numbers are due.
pub fn miscounted(mnemonic: &str, number: usize) -> Option<String> {
    let takes = usages(mnemonic, number).next().is_some();
    (!takes).then(|| other_number(mnemonic, number))
}

/// Whether an address may stand in an operand's place, behind those before it; in brackets, if the
/// operand has them.
pub fn may_be_address(mnemonic: &str, operands: &[&str], at: usize) -> bool {
    let address = if operands[at].starts_with('[') { AtAddress } else { Address };
    let mut usages = usages(mnemonic, operands.len());
    usages.any(|usage| usage[at] == address && fitting(usage, operands) >= at)
}

/// The first operand that doesn't fit behind those before it, if they are as many as are due and
/// right by themselves.
pub fn misfit(mnemonic: &str, operands: &[&str]) -> Option<String> {
    let usages: Vec<&[Due]> = usages(mnemonic, operands.len()).collect();
    let most = usages.iter().map(|usage| fitting(usage, operands)).max()?;
    let operand = operands.get(most)?;
    let nearest = usages.iter().filter(|usage| fitting(usage, operands) == most);
    Some(misplaced(operand, nearest.map(|usage| usage[most]).collect()))
}

/// How many operands fit before the first that doesn't.
fn fitting(usage: &[Due], operands: &[&str]) -> usize {
    let pairs = usage.iter().zip(operands);
    pairs.take_while(|(due, operand)| due.fits(operand)).count()
}

/// The usages of a mnemonic that have so many operands.
fn usages(mnemonic: &str, number: usize) -> impl Iterator<Item = &'static [Due]> + '_ {
    let alike = USAGES.into_iter().filter(move |usage| usage.len() == number);
    alike.filter(|usage| is_usage(mnemonic, usage))
}

/// Whether a mnemonic takes such operands.
fn is_usage(mnemonic: &str, usage: &[Due]) -> bool {
    let operands: Vec<&str> = usage.iter().map(|due| due.sample()).collect();
    is_line(&spelled(mnemonic, &operands))
}

/// So many operands where other numbers are due.
fn other_number(mnemonic: &str, number: usize) -> String {
    let most = USAGES.iter().map(|usage| usage.len()).max().unwrap_or_default();
    let due = (0..=most).filter(|number| usages(mnemonic, *number).next().is_some());
    let due: Vec<usize> = due.collect();
    match due[..] {
        [0] => format!("{mnemonic} takes no operand"),
        [1] => format!("{mnemonic} takes 1 operand, not {number}"),
        _ => format!("{mnemonic} takes {} operands, not {number}", any_of(&due)),
    }
}

/// An operand where others are due.
fn misplaced(operand: &str, mut due: Vec<Due>) -> String {
    if let Some(name) = due.iter().find_map(|due| due.other_case(operand)) {
        return format!("{} is spelled {name}", shown(operand));
    }
    due.dedup();
    if due.contains(&Address) {
        // A number is an address too.
        due.retain(|due| *due != Number);
    }
    format!("{} stands where {} is due", shown(operand), any_of(&due))
}

/// These one after another, the last behind `or`.
fn any_of(items: &[impl ToString]) -> String {
    let mut items: Vec<String> = items.iter().map(ToString::to_string).collect();
    let last = items.pop().unwrap_or_default();
    if items.is_empty() {
        return last;
    }
    format!("{} or {last}", items.join(", "))
}
