//! A text's words, with its labels filled in once all of them are known.

use super::line::Line;
use super::statement::Argument;
use std::collections::HashMap;

/// The words of a text, label addresses still 0.
#[derive(Default)]
pub struct Program<'a> {
    words: Vec<[u8; 2]>,
    labels: HashMap<&'a str, usize>,
    uses: Vec<Use<'a>>,
    repeated: Option<usize>,
}

/// A place where a label's address goes.
struct Use<'a> {
    label: &'a str,
    line: usize,
    at: usize,
}

impl<'a> Program<'a> {
    /// The program of a text, or the first line that is no instruction or macro.
    pub fn read(text: &'a [u8]) -> Result<Program<'a>, usize> {
        let mut program = Program::default();
        let lines = text.split_inclusive(|byte| *byte == b'\n');
        for (number, line) in (1..).zip(lines) {
            let line = Line::read(line.strip_suffix(b"\n").unwrap_or(line)).ok_or(number)?;
            program.add(number, line);
        }
        Ok(program)
    }

    /// Adds the words of a line.
    fn add(&mut self, number: usize, line: Line<'a>) {
        if let Some(label) = line.label {
            if self.labels.insert(label, self.words.len()).is_some() {
                self.repeated.get_or_insert(number);
            }
        }
        for word in line.statement.words() {
            let at = self.words.len();
            let argument = match word.argument {
                Argument::Byte(byte) => byte,
                Argument::Skip => (at + 2) as u8,
                Argument::Label(label) => {
                    self.uses.push(Use { label, line: number, at });
                    0
                }
            };
            self.words.push([word.opcode, argument]);
        }
    }

    /// The words with the labels' addresses, or the first line that repeats a label or uses one
    /// that is missing.
    pub fn words(mut self) -> Result<Vec<[u8; 2]>, usize> {
        let missing = self.uses.iter().find(|place| !self.labels.contains_key(place.label));
        let missing = missing.map(|place| place.line);
        if let Some(line) = [self.repeated, missing].into_iter().flatten().min() {
            return Err(line);
        }
        for Use { label, at, .. } in self.uses {
            self.words[at][1] = self.labels[label] as u8;
        }
        Ok(self.words)
    }
}
