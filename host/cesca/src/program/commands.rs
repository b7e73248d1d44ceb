//! The commands that the program has.

use super::console::Console;
use super::failure::Failure;
use super::options::Options;
use super::{admit, assemble, busy, draw, file, open, print, room, run, sheet, shelve, step};
use std::ops::RangeInclusive;

/// A command.
pub struct Command {
    /// Its name.
    pub name: &'static str,
    /// The files that it takes, as the help names them.
    pub files: &'static str,
    /// How many they may be.
    pub number: RangeInclusive<usize>,
    /// The options that it takes, each with the kind of its value.
    pub options: &'static [(&'static str, Value)],
    /// What it does, line by line.
    pub about: &'static [&'static str],
    /// Does it.
    pub run: fn(&mut Console, &Options) -> Result<(), Failure>,
}

/// The kinds of values that options have.
#[derive(Clone, Copy)]
pub enum Value {
    /// Keys.
    Keys,
    /// A number for a call that refuses the highest of 32 bits, which stands for all above it.
    Judged,
    /// A number of 32 bits; one above them is wrong.
    Exact,
}

impl Command {
    /// How the command is typed. An option that stands behind a file is shown there.
    pub fn usage(&self) -> String {
        let options = self.options.iter().filter(|(name, _)| !self.files.contains(name));
        let options = options.map(|(name, value)| format!(" [{name} {}]", value.shown()));
        format!("cesca {} {}{}", self.name, self.files, options.collect::<String>())
    }
}

impl Value {
    /// What the help shows for such a value.
    fn shown(self) -> &'static str {
        match self {
            Value::Keys => "1,2,3",
            Value::Judged | Value::Exact => "N",
        }
    }
}

/// The commands, in the order of the help.
pub static COMMANDS: [Command; 12] = [
    Command {
        name: "admit",
        files: "FILE..",
        number: 1..=usize::MAX,
        options: &[],
        about: &["Tells of each listing whether it is admitted, or what is wrong with it."],
        run: admit::admit,
    },
    Command {
        name: "run",
        files: "FILE",
        number: 1..=1,
        options: &[("--keys", Value::Keys), ("--steps", Value::Judged), ("--hz", Value::Judged)],
        about: &[
            "Runs an admitted listing from the start, with zero data and stack, for",
            "1,000,000 steps at most or as many as --steps says. Keys are decimal or as",
            "0x1C. The LCD's roll is shown as text: a command as [01]; a byte without a",
            "character, a bracket and a backslash as \\x5B. With --hz N, the time at this",
            "clock is told; N is whole, 1 to 1,000,000. A board's clock can be set from",
            "0.7 to 668 Hz.",
        ],
        run: run::run,
    },
    Command {
        name: "busy",
        files: "FILE",
        number: 1..=1,
        options: &[("--keys", Value::Keys), ("--steps", Value::Judged), ("--hz", Value::Judged)],
        about: &[
            "Runs an admitted listing as `cesca run` does, and shows where the steps",
            "went: behind what `cesca run` tells, a line for each address that executed,",
            "the largest count first, equal counts by lower address. A line has the",
            "address in hexadecimal, how often it executed, and the instruction.",
        ],
        run: busy::busy,
    },
    Command {
        name: "room",
        files: "FILE [--keys 1,2,3] ..",
        number: 1..=usize::MAX,
        options: &[("--keys", Value::Keys), ("--slice", Value::Exact), ("--steps", Value::Exact)],
        about: &[
            "Lets the boards of up to eight admitted listings take turns, in the order of",
            "the files, and shows a line for each. --keys stands behind the FILE that it",
            "is for. A turn has 1,000 steps at most, or as many as --slice says, 1 to",
            "1,000. All boards together make 1,000,000 steps at most, or as many as",
            "--steps says, up to 4,294,967,295; a board that could go on then is spent.",
            "A roll has a word for each step, but 1,000,000 at most.",
        ],
        run: room::room,
    },
    Command {
        name: "sheet",
        files: "FILE",
        number: 1..=1,
        options: &[],
        about: &[
            "Shows the routines and each described address: routine, depth, V where it",
            "is marked, instruction. What a refusal is about is marked with <.",
        ],
        run: sheet::sheet,
    },
    Command {
        name: "step",
        files: "FILE",
        number: 1..=1,
        options: &[("--keys", Value::Keys)],
        about: &[
            "Steps through the run of an admitted listing. On standard input, an empty",
            "line makes a step, a number makes that many, and q ends.",
        ],
        run: step::step,
    },
    Command {
        name: "assemble",
        files: "SOURCE [BANKS]",
        number: 1..=2,
        options: &[],
        about: &[
            "Makes the banks of a text of instructions, or tells what is wrong with its",
            "first wrong line. Without BANKS, the words are shown for keying in: address,",
            "then opcode and argument in hexadecimal, then the instruction.",
            "SOURCE may have macros and labels, as in loop: inc R0 and jmp loop. Numbers",
            "are decimal, 0 to 255, or 0x and two hexadecimal digits: 28 is 0x1C too.",
        ],
        run: assemble::assemble,
    },
    Command {
        name: "draw",
        files: "SOURCE|BANKS|FILE [FILE]",
        number: 1..=2,
        options: &[],
        about: &[
            "Draws the sheet of a text's words, or of banks: the addresses that are",
            "reached, and each routine with the least need that the rules allow. It is",
            "shown as by `cesca sheet`. With a second name, the listing's file is made",
            "too. For a listing's file, its banks are drawn anew, and it is told which of",
            "its own needs are not the least.",
        ],
        run: draw::draw,
    },
    Command {
        name: "print",
        files: "BANKS|FILE",
        number: 1..=1,
        options: &[],
        about: &[
            "Prints the instruction of each word up to the last that isn't 00 00, as text",
            "that can be assembled.",
        ],
        run: print::print,
    },
    Command {
        name: "file",
        files: "TEXT FILE",
        number: 2..=2,
        options: &[],
        about: &["Makes the desk's file of a listing that is written as text."],
        run: file::file,
    },
    Command {
        name: "shelve",
        files: "FILE SHELF",
        number: 2..=2,
        options: &[],
        about: &[
            "Makes the shelf file of a listing, which leaves out the zeros behind the",
            "last word. Every listing has one, admitted or not.",
        ],
        run: shelve::shelve,
    },
    Command {
        name: "open",
        files: "SHELF FILE",
        number: 2..=2,
        options: &[],
        about: &[
            "Makes the desk's file of the listing in a shelf file, or tells the byte at",
            "which the shelf file is wrong, and what is wrong there. The first byte is 0.",
        ],
        run: open::open,
    },
];
