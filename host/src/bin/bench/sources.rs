//! Texts to assemble: some that fill the banks, and bigger ones.

use std::iter;

/// A part of a text as a member writes it. `@` ends each label: another letter in every part.
const PART: &str = "\
start@: mov R0, IN
mask IN, 0x80
jz start@
mov IN, Ack
mov R1, [16]
push R2
push R3
mov R2, 0
mov R3, 8
loop@: mask R1, 1
jeq even@
add R2, R2, R0
even@: srl R1, R1
sll R0, R0
dec R3
jne loop@
mov R0, R2
mov [17], R0
call show@
cmp R0, 100
jleu small@
cmp R0, R1
jltu small@
xor R1, R1, R0
small@: mov OUT, R0
pop R3
pop R2
test R0
jnz start@
jmp R3
show@: mov LCD, R0
ret
print@: mov LCDcmd, Clr
mov LCD, 72
mov LCD, [32]
mov OUT, [33]
mov R1, [R0]
mov [R0], R1
add R0, R0, 0xff
nand R1, R1, R0
nor R2, R1, R0
jp next@
not R1, R1
inc R1
next@: and R1, R1, R3
both@: or R1, R1, R2
jv fail@
addc R2, R2, R1
subb R3, R3, R1
jnv shift@
shift@: sra R2, R2
rol R3, R3
back@: swap R2
sllc R2, R2
jlt print@
xnor R1, R1, R2
sub NONE, R1, R2
jle fail@
mask R1, R2
jlz both@
jgz print@
jnc back@
jmp start@
fail@: hlt
";

/// The letters that end the labels of four parts.
const PARTS: [&str; 4] = ["a", "b", "c", "d"];

/// Macros that compare and jump, each of three words.
const MACROS: &str = "jgtu R0, 10, 0\njgt R1, 100, 127\njge R2, 0x7f, 255\nmov LCDcmd, Init\n";

/// The texts that are assembled, by name.
pub fn assembled() -> [(&'static str, String); 3] {
    [
        ("256 lines", PARTS.map(|letter| PART.replace('@', letter)).concat()),
        ("256 labelled lines", labelled(256)),
        ("85 long macros", MACROS.repeat(22).lines().take(85).map(ended).collect()),
    ]
}

/// Lines without labels, at least so many bytes.
pub fn plain(bytes: usize) -> String {
    let lines = PART.lines().filter(|line| !line.contains('@')).map(ended);
    let lines: String = lines.collect();
    lines.repeat(bytes.div_ceil(lines.len()))
}

/// So many lines, each with a label of its own and with a jump to some other.
pub fn labelled(lines: usize) -> String {
    let line = |number: usize| {
        // A prime, so that the jumps go all over the text.
        let target = number * 7919 % lines;
        format!("{}: jmp {}\n", name(number), name(target))
    };
    (0..lines).map(line).collect()
}

/// Such lines, at least so many bytes.
pub fn labelled_bytes(bytes: usize) -> String {
    labelled(bytes.div_ceil(labelled(1).len()))
}

/// A label of four letters for a number.
fn name(number: usize) -> String {
    let digits = iter::successors(Some(number), |rest| Some(rest / 26)).take(4);
    digits.map(|rest| char::from(b'a' + (rest % 26) as u8)).collect()
}

/// A line with its end.
fn ended(line: &str) -> String {
    format!("{line}\n")
}

#[cfg(test)]
mod tests {
    use super::*;
    use cesca::{assemble, BANK};

    #[test]
    fn the_texts_fill_the_banks() {
        for (name, text) in assembled() {
            let words = assemble(text.as_bytes()).map(|assembled| assembled.words);
            assert!(words == Ok(BANK) || words == Ok(BANK - 1), "{name}: {words:?}");
        }
    }

    #[test]
    fn the_first_is_labelled_as_members_do() {
        let (_, text) = &assembled()[0];
        let lines: Vec<&str> = text.lines().collect();
        let labels: Vec<&str> =
            lines.iter().filter_map(|line| Some(line.split_once(": ")?.0)).collect();
        let names =
            |line: &&&str| line.split(' ').next_back().is_some_and(|last| labels.contains(&last));
        let naming = lines.iter().filter(names).count();
        assert_eq!((lines.len(), labels.len(), naming), (256, 44, 64));
    }

    #[test]
    fn the_big_ones_have_too_many_words() {
        for text in [plain(64_000), labelled_bytes(64_000)] {
            assert!((64_000..66_000).contains(&text.len()));
            let refusal = assemble(text.as_bytes()).expect_err("too many words");
            assert_eq!(refusal.number(), 26);
        }
    }
}
