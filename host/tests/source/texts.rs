//! Good texts, drawn at random from all lines that 003 has.

use crate::random::Random;
use std::iter;

/// 003's function table.
const FUNCTIONS: [&str; 16] = [
    "mov Rd, Rb",
    "add Rd, Ra, Rb",
    "sub Rd, Ra, Rb",
    "addc Rd, Ra, Rb",
    "subb Rd, Ra, Rb",
    "and Rd, Ra, Rb",
    "or Rd, Ra, Rb",
    "not Rd, Ra",
    "xor Rd, Ra, Rb",
    "nand Rd, Ra, Rb",
    "nor Rd, Ra, Rb",
    "xnor Rd, Ra, Rb",
    "sll Rd, Ra",
    "srl Rd, Ra",
    "sra Rd, Ra",
    "rol Rd, Ra",
];

/// The other rows of its instruction table.
#[rustfmt::skip]
const INSTRUCTIONS: [&str; 38] = [
    "add Rd, Ra, Imm8", "cmp Ra, Imm8", "mask Ra, Imm8", "mask IN, Imm8",
    "mov Rd, Imm8", "mov Rd, IN", "mov IN, Ack", "mov [Addr8], Ra", "mov [Rb], Ra", "push Ra",
    "mov Rd, [Addr8]", "mov Rd, [Ra]", "pop Rd", "swap Rd, Ra",
    "jmp Addr8", "jmp Ra", "call Addr8", "ret", "jz Addr8", "jnz Addr8", "jc Addr8", "jnc Addr8",
    "jv Addr8", "jnv Addr8", "jlz Addr8", "jp Addr8", "jgz Addr8", "jleu Addr8", "jlt Addr8",
    "jle Addr8",
    "mov LCDcmd, Imm8", "mov LCD, Imm8", "mov LCD, Ra", "mov LCD, [Addr8]", "mov OUT, Ra",
    "mov OUT, [Addr8]", "hlt", "nop",
];

/// The macros of one word.
#[rustfmt::skip]
const MACROS: [&str; 11] = [
    "cmp Ra, Rb", "mask Ra, Rb", "test Ra", "inc Ra", "dec Ra", "sllc Rd, Ra", "swap Ra",
    "mov LCDcmd, Clr", "jeq Addr8", "jne Addr8", "jltu Addr8",
];

/// The macros of more words, with their number.
const LONG_MACROS: [(&str, usize); 9] = [
    ("jgtu Ra, Rb, Addr8", 2),
    ("jgeu Ra, Rb, Addr8", 2),
    ("jgeu Ra, Imm8, Addr8", 2),
    ("jgt Ra, Rb, Addr8", 2),
    ("jge Ra, Rb, Addr8", 2),
    ("mov LCDcmd, Init", 3),
    ("jgtu Ra, Imm8, Addr8", 3),
    ("jgt Ra, Imm8, Addr8", 3),
    ("jge Ra, Imm8, Addr8", 3),
];

/// Labels that read like something else.
const ODD_NAMES: [&str; 10] =
    ["IN", "NONE", "R", "jmp", "Ack", "hlt", "LCD", "OUT", "Init", "skip"];

/// Words that nearly fill the banks, or more than fill them.
const MANY_WORDS: [usize; 4] = [255, 256, 257, 300];

/// A line: what names it, what stands on it, and the label that its address is, if it is one.
#[derive(Clone)]
pub struct Line {
    pub label: Option<usize>,
    pub statement: String,
    pub target: Option<usize>,
}

/// A text whose labels are numbers of names.
pub struct Text {
    pub names: Vec<String>,
    pub lines: Vec<Line>,
    /// The words that it stands for.
    pub words: usize,
}

impl Text {
    /// A good text: most are short, and some nearly fill the banks or more.
    pub fn drawn(random: &mut Random) -> Text {
        let many = random.once_in(30);
        let words = if many { random.pick(&MANY_WORDS) } else { random.below(24) as usize };
        let mut text = Text { names: Vec::new(), lines: Vec::new(), words: 0 };
        while text.words < words {
            text.add_line(random);
        }
        text.add_labels(random);
        text
    }

    /// Adds a line without a label.
    fn add_line(&mut self, random: &mut Random) {
        let (line, words) = match random.below(8) {
            0..3 => (random.pick(&FUNCTIONS), 1),
            3..6 => (random.pick(&INSTRUCTIONS), 1),
            6 => (random.pick(&MACROS), 1),
            _ => random.pick(&LONG_MACROS),
        };
        let no_result = FUNCTIONS.contains(&line) && random.once_in(3);
        let line = if no_result { line.replace("Rd", "NONE") } else { line.to_string() };
        let line = ["Rd", "Ra", "Rb"]
            .into_iter()
            .fold(line, |line, name| line.replace(name, random.pick(&["R0", "R1", "R2", "R3"])));
        let statement = line.replace("Imm8", &number(random));
        self.lines.push(Line { label: None, statement, target: None });
        self.words += words;
    }

    /// Gives some lines a label, and lets some addresses be labels.
    fn add_labels(&mut self, random: &mut Random) {
        let times = random.pick(&[1, 3, 6, 300]);
        for line in &mut self.lines {
            if random.once_in(times) {
                line.label = Some(self.names.len());
                self.names.push(new_name(&self.names, random));
            }
        }
        for line in &mut self.lines {
            if !self.names.is_empty() && !random.once_in(3) {
                line.target = Some(random.below(self.names.len() as u32) as usize);
            } else {
                line.statement = line.statement.replace("Addr8", &number(random));
            }
        }
    }

    /// The text as a member types it; the last line may lack its line feed.
    pub fn typed(&self, random: &mut Random) -> String {
        let mut text: String = self.lines.iter().map(|line| self.line(line) + "\n").collect();
        if random.once_in(2) {
            text.pop();
        }
        text
    }

    /// A line as a member types it.
    fn line(&self, line: &Line) -> String {
        let target = line.target.map_or("", |target| &self.names[target]);
        let statement = line.statement.replace("Addr8", target);
        match line.label {
            Some(label) => format!("{}: {statement}", self.names[label]),
            None => statement,
        }
    }
}

/// A number in one of its spellings.
fn number(random: &mut Random) -> String {
    let byte = random.byte();
    let value = random.pick(&[0, 9, 10, 99, 100, 199, 200, 249, 250, 255, byte, byte]);
    match random.below(4) {
        0 => format!("0x{value:02x}"),
        1 => format!("0x{value:02X}"),
        _ => value.to_string(),
    }
}

/// A label that isn't among these.
fn new_name(names: &[String], random: &mut Random) -> String {
    loop {
        let length = 1 + random.below(12) as usize;
        let odd = random.once_in(10);
        let name = if odd { random.pick(&ODD_NAMES).to_string() } else { letters(length, random) };
        if !names.contains(&name) {
            return name;
        }
    }
}

/// So many letters of either case.
pub fn letters(length: usize, random: &mut Random) -> String {
    let letter = || random.pick(b"abcdefghijklmnopqrstuvwxyzABCDEFGHIJKLMNOPQRSTUVWXYZ") as char;
    iter::repeat_with(letter).take(length).collect()
}
