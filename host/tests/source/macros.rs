//! 003's macro page, line by line, and what each line stands for.

use crate::banks::Banks;
use crate::compare::{check, check_words};
use crate::sides::{Answer, ASSEMBLERS};
use cesca::BANK;

/// The macros, each with its words from 003's arrow, written out by hand; `+2` is the word's own
/// address and 2 more, modulo 256: the address after the next instruction.
const WORDS: [(&str, &str); 20] = [
    ("cmp R1, R2", "21 22"),  // sub NONE, R1, R2
    ("test R3", "20 03"),     // mov NONE, R3
    ("inc R2", "1A 01"),      // add R2, R2, 1
    ("dec R1", "15 FF"),      // add R1, R1, -1
    ("sllc R3, R1", "0D 31"), // addc R3, R1, R1
    ("swap R2", "9A 00"),     // swap R2, R2
    ("mov LCDcmd, Init", "E0 38 E0 0E E0 06"),
    ("mov LCDcmd, Clr", "E0 01"),
    ("jeq 200", "B0 C8"),                     // jz 200
    ("jne 200", "B4 C8"),                     // jnz 200
    ("jltu 200", "B8 C8"),                    // jc 200
    ("jgtu R1, R2, 200", "22 21 B8 C8"),      // cmp R2, R1; jltu 200
    ("jgtu R1, 7, 200", "25 07 D4 +2 A0 C8"), // cmp R1, 7; jleu skip(1); jmp 200
    ("jgeu R1, R2, 200", "21 22 BC C8"),      // cmp R1, R2; jnc 200
    ("jgeu R1, 7, 200", "25 07 BC C8"),       // cmp R1, 7; jnc 200
    ("jgt R1, R2, 200", "22 21 D8 C8"),       // cmp R2, R1; jlt 200
    ("jgt R1, 7, 200", "25 07 DC +2 A0 C8"),  // cmp R1, 7; jle skip(1); jmp 200
    ("jge R1, R2, 200", "22 21 DC C8"),       // cmp R2, R1; jle 200
    ("jge R1, 7, 200", "25 07 D8 +2 A0 C8"),  // cmp R1, 7; jlt skip(1); jmp 200
    ("mask R1, R2", "21 52"),                 // no macro; by 003's remarks, and NONE, R1, R2
];

/// The macros with the instructions on the right of 003's arrow; `skip` is `skip(1)`.
const ARROWS: [(&str, &str); 20] = [
    ("cmp Ra, Rb", "sub NONE, Ra, Rb"),
    ("test Ra", "mov NONE, Ra"),
    ("inc Ra", "add Ra, Ra, 1"),
    ("dec Ra", "add Ra, Ra, 255"),
    ("sllc Rb, Ra", "addc Rb, Ra, Ra"),
    ("swap Ra", "swap Ra, Ra"),
    ("mov LCDcmd, Init", "mov LCDcmd, 0x38; mov LCDcmd, 0x0E; mov LCDcmd, 0x06"),
    ("mov LCDcmd, Clr", "mov LCDcmd, 0x01"),
    ("jeq addr", "jz addr"),
    ("jne addr", "jnz addr"),
    ("jltu addr", "jc addr"),
    ("jgtu Ra, Rb, addr", "cmp Rb, Ra; jltu addr"),
    ("jgtu Ra, Imm8, addr", "cmp Ra, Imm8; jleu skip; jmp addr"),
    ("jgeu Ra, Rb, addr", "cmp Ra, Rb; jnc addr"),
    ("jgeu Ra, Imm8, addr", "cmp Ra, Imm8; jnc addr"),
    ("jgt Ra, Rb, addr", "cmp Rb, Ra; jlt addr"),
    ("jgt Ra, Imm8, addr", "cmp Ra, Imm8; jle skip; jmp addr"),
    ("jge Ra, Rb, addr", "cmp Rb, Ra; jle addr"),
    ("jge Ra, Imm8, addr", "cmp Ra, Imm8; jlt skip; jmp addr"),
    ("mask Ra, Rb", "and NONE, Ra, Rb"),
];

/// The word of `nop`.
const NOP: [u8; 2] = [0xFC, 0x00];

/// The addresses at which macros are tried: the first ones, and all near the end of the banks.
fn starts() -> impl Iterator<Item = usize> {
    [0, 1, 127].into_iter().chain(BANK - 8..=BANK)
}

/// A text with as many nops before it as there are addresses before a start.
fn placed(text: &str, start: usize) -> Vec<u8> {
    ("nop\n".repeat(start) + text).into_bytes()
}

/// The words of a macro that begins at this address.
fn words(bytes: &str, start: usize) -> Vec<[u8; 2]> {
    let bytes: Vec<&str> = bytes.split(' ').collect();
    let words = bytes.chunks(2).enumerate().map(|(number, word)| {
        let byte = |digits| u8::from_str_radix(digits, 16).expect("two digits");
        let argument = if word[1] == "+2" { (start + number + 2) as u8 } else { byte(word[1]) };
        [byte(word[0]), argument]
    });
    words.collect()
}

#[test]
fn each_macro_stands_for_its_words() {
    for (line, bytes) in WORDS {
        for start in starts() {
            let mut wanted = vec![NOP; start];
            wanted.extend(words(bytes, start));
            match wanted.len() {
                0..=BANK => check_words(&placed(line, start), &wanted),
                _ => check(&placed(line, start), Err((26, 0))),
            }
        }
    }
}

/// A line of the page with these registers, this number and this address.
fn spelled(line: &str, [a, b]: [u8; 2], skip: usize) -> String {
    let named = line.replace("Ra", &format!("R{a}")).replace("Rb", &format!("R{b}"));
    let numbered = named.replace("Imm8", "0xfe").replace("addr", "77");
    numbered.replace("skip", &(skip % BANK).to_string()).replace("; ", "\n")
}

/// What both assemblers fill the banks with.
fn filled(text: &[u8]) -> [(Answer, Banks); 2] {
    ASSEMBLERS.map(|(_, assembler)| Banks::old(BANK, BANK).lent(assembler, text))
}

#[test]
fn each_macro_is_what_stands_right_of_its_arrow() {
    for (left, right) in ARROWS {
        for number in 0..16 {
            let registers = [number / 4, number % 4];
            for start in [0, 199, 252, 253, 254, 255] {
                let [left, right] =
                    [left, right].map(|side| placed(&spelled(side, registers, start + 3), start));
                let [left, right] = [filled(&left), filled(&right)];
                assert!(left == right, "{registers:?} at {start}: {left:?}, wanted {right:?}");
            }
        }
    }
}

#[test]
fn a_label_stands_for_a_macros_first_word_and_for_its_address() {
    let text = b"a: jge R0, 0xFF, b\nb: mov LCDcmd, Init\nc: jgtu R1, 2, a\njeq c\njgt R0, R1, b";
    let jge = [[0x24, 0xFF], [0xD8, 3], [0xA0, 3]];
    let init = [[0xE0, 0x38], [0xE0, 0x0E], [0xE0, 0x06]];
    let jgtu = [[0x25, 2], [0xD4, 9], [0xA0, 0]];
    let rest = [[0xB0, 6], [0x21, 0x20], [0xD8, 3]];
    check_words(text, &[jge, init, jgtu, rest].concat());
}

#[test]
fn what_the_page_writes_and_nobody_types() {
    for line in ["jmp skip(1)", "jle skip(1)", "add R0, R0, -1", "mov R0, -1"] {
        check(line.as_bytes(), Err((24, 1)));
    }
    for line in ["JGEU R0, R1, 3", "JGT R0, 1, 3", "jgt R0, R1, R2", "jgt R0, a, 3", "jge 1, 2, 3"]
    {
        check(line.as_bytes(), Err((24, 1)));
    }
    for line in ["inc NONE", "dec NONE", "test NONE", "sllc NONE, R0", "swap NONE", "cmp NONE, R0"]
    {
        check(line.as_bytes(), Err((24, 1)));
    }
}
