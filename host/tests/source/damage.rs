//! Texts in which something is exchanged, left out or put in.

use crate::random::Random;
use crate::texts::{letters, Text};

/// Bytes that stand in texts, and some that don't.
const BYTES: &[u8] = b"0123456789aAbBfFmoxRRNI,,  ::[]\n\n\t\r;#-+()_.\0\x7F\x80\xC3\xFF";

/// A way to change lines and labels.
type Change = fn(&mut Text, &mut Random);

/// The ways to change lines and labels.
const CHANGES: [Change; 9] = [
    line_left_out,
    line_doubled,
    lines_exchanged,
    label_left_out,
    label_doubled,
    name_of_another_case,
    name_of_12_letters,
    name_of_13_letters,
    number_over_range,
];

/// A damaged text: lines and labels changed, bytes changed, or both.
pub fn damaged(mut text: Text, random: &mut Random) -> Vec<u8> {
    let kind = random.below(4);
    if kind < 3 && !text.lines.is_empty() {
        random.pick(&CHANGES)(&mut text, random);
    }
    let mut bytes = text.typed(random).into_bytes();
    if kind > 1 {
        (0..=random.below(2)).for_each(|_| change_bytes(&mut bytes, random));
    }
    bytes
}

/// Exchanges, leaves out or puts in up to two bytes, or changes the case of one.
fn change_bytes(bytes: &mut Vec<u8>, random: &mut Random) {
    let at = random.below(bytes.len() as u32 + 1) as usize;
    if let (Some(byte), true) = (bytes.get_mut(at), random.once_in(5)) {
        *byte ^= 0x20;
        return;
    }
    let end = (at + random.below(3) as usize).min(bytes.len());
    let count = random.below(3) as usize;
    let others: Vec<u8> = (0..count).map(|_| random.pick(BYTES)).collect();
    bytes.splice(at..end, others);
}

/// The place of some line.
fn place(text: &Text, random: &mut Random) -> usize {
    random.below(text.lines.len() as u32) as usize
}

/// The number of some name, if there are names.
fn name(text: &Text, random: &mut Random) -> Option<usize> {
    let names = text.names.len();
    (names > 0).then(|| random.below(names as u32) as usize)
}

fn line_left_out(text: &mut Text, random: &mut Random) {
    let at = place(text, random);
    text.lines.remove(at);
}

fn line_doubled(text: &mut Text, random: &mut Random) {
    let [at, to] = [place(text, random), place(text, random)];
    let line = text.lines[at].clone();
    text.lines.insert(to, line);
}

fn lines_exchanged(text: &mut Text, random: &mut Random) {
    let [at, to] = [place(text, random), place(text, random)];
    text.lines.swap(at, to);
}

fn label_left_out(text: &mut Text, random: &mut Random) {
    let label = name(text, random);
    for line in text.lines.iter_mut().filter(|line| line.label == label) {
        line.label = None;
    }
}

fn label_doubled(text: &mut Text, random: &mut Random) {
    let [at, again] = [place(text, random), place(text, random)];
    text.lines[at].label = name(text, random);
    text.lines[again].label = text.lines[at].label;
}

fn name_of_another_case(text: &mut Text, random: &mut Random) {
    let Some(number) = name(text, random) else { return };
    let other: String = text.names[number].chars().map(other_case).collect();
    text.names.push(other);
    let label = Some(text.names.len() - 1);
    for line in text.lines.iter_mut().filter(|line| line.label == Some(number)) {
        line.label = label;
    }
}

/// The same letter, small if it was large and large if it was small.
fn other_case(letter: char) -> char {
    if letter.is_ascii_uppercase() {
        letter.to_ascii_lowercase()
    } else {
        letter.to_ascii_uppercase()
    }
}

fn name_of_12_letters(text: &mut Text, random: &mut Random) {
    rename(text, 12, random);
}

fn name_of_13_letters(text: &mut Text, random: &mut Random) {
    rename(text, 13, random);
}

/// Gives some label a name of so many letters.
fn rename(text: &mut Text, length: usize, random: &mut Random) {
    if let Some(number) = name(text, random) {
        text.names[number] = letters(length, random);
    }
}

fn number_over_range(text: &mut Text, random: &mut Random) {
    let at = place(text, random);
    let wrong = random.pick(&["256", "300", "00", "007", "0x5", "0x100", "-1", "R4"]);
    let statement = &text.lines[at].statement;
    text.lines[at].statement = match statement.rsplit_once(' ') {
        Some((start, _)) => format!("{start} {wrong}"),
        None => format!("{statement} {wrong}"),
    };
}
