//! Shelf files: the two calls of request 7.

use crate::blocks::Block;
use crate::file::Outcome;
use crate::memory::Guarded;
use crate::run::refused;
use crate::shelf_buffers::Buffers;
use crate::shelvers::{Opened, Shelved, OPENERS, WRITERS};
use crate::values::{bytes, number};

/// A listing's parts, or buffers for them.
const PARTS: [&str; 4] = ["op", "arg", "sheet", "list"];

/// What a case says of the buffers after a file is opened.
const LEFT: [&str; 4] = ["op-after", "arg-after", "sheet-after", "list-after"];

/// Whether both writers answer and leave what the case says.
pub fn write(block: &Block) -> Outcome {
    let answers = ["length", "buffer-after"];
    block.expect_keys(&[&PARTS[..], &["buffer"], &answers, &["refused"]].concat())?;
    let [opcodes, arguments, sheet, list] = parts(block, PARTS)?;
    let before = Guarded::new(bytes(block.value("buffer")?)?);
    let wanted = block.optional("buffer-after")?.map(|after| bytes(after).map(Guarded::new));
    let wanted = wanted.transpose()?.unwrap_or_else(|| before.clone());
    let answer: Shelved = match refused(block, &answers)? {
        Some(number) => Err(number),
        None => Ok(number(block.value("length")?)?),
    };
    for (name, writer) in WRITERS {
        let mut left = before.clone();
        let found = writer(&opcodes, &arguments, &sheet, &list, left.inner_mut());
        if found != answer {
            return Err(format!("{name} answers {found:?}, wanted {answer:?}"));
        }
        if left != wanted {
            return Err(format!("{name} leaves {}", left.differences(&wanted).join("; ")));
        }
    }
    Ok(())
}

/// Whether both openers answer and leave what the case says. It tells the number of a refusal
/// alone, so the two are held against each other for its byte.
pub fn open(block: &Block) -> Outcome {
    let answers = [&["routines"][..], &LEFT].concat();
    block.expect_keys(&[&PARTS[..], &["file"], &answers, &["refused"]].concat())?;
    let file = bytes(block.value("file")?)?;
    let before = buffers(&parts(block, PARTS)?);
    let answer = match refused(block, &answers)? {
        Some(number) => Err(number),
        None => Ok(number(block.value("routines")?)?),
    };
    let wanted = if answer.is_ok() { buffers(&parts(block, LEFT)?) } else { before.clone() };
    let outcomes = OPENERS.map(|(name, opener)| (name, before.lent(opener, &file)));
    for (name, (found, left)) in &outcomes {
        if found.map_err(|(number, _)| number) != answer {
            return Err(format!("{name} answers {found:?}, wanted {answer:?}"));
        }
        if *left != wanted {
            return Err(format!("{name} leaves {}", left.differences(&wanted)));
        }
    }
    let [library, reference]: [Opened; 2] = outcomes.map(|(_, (found, _))| found);
    if library != reference {
        return Err(format!("the library answers {library:?}, and the reference {reference:?}"));
    }
    Ok(())
}

/// The bytes of the four parts under these keys.
fn parts(block: &Block, keys: [&str; 4]) -> Result<[Vec<u8>; 4], String> {
    let [opcodes, arguments, sheet, list] = keys.map(|key| block.value(key).and_then(bytes));
    Ok([opcodes?, arguments?, sheet?, list?])
}

/// Buffers with these bytes.
fn buffers(parts: &[Vec<u8>; 4]) -> Buffers {
    Buffers::new(parts.each_ref().map(Vec::as_slice))
}

#[cfg(test)]
mod tests {
    use crate::file::{expect_wrong, only};

    /// The listing with mov R0, 200 at 0 and a routine with a need of 1 is written.
    const WRITE: &str = "case: a\ncall: shelf-write\nop: 30+00*255\narg: C8+00*255\n\
        sheet: 0080+00*510\nlist: 0001\nbuffer: 23*2060\nlength: 10\n\
        buffer-after: 0130C801808002010001+23*2050";

    /// Its file is opened.
    const OPEN: &str = "case: a\ncall: shelf-open\nfile: 0130C801808002010001\nop: 31*256\n\
        arg: 32*256\nsheet: 33*512\nlist: 34*128\nroutines: 1\nop-after: 30+00*255\n\
        arg-after: C8+00*255\nsheet-after: 0080+00*510\nlist-after: 0001+00*126";

    #[test]
    fn files_that_hold() {
        assert_eq!(only("a.txt", WRITE), Ok(()));
        assert_eq!(only("a.txt", OPEN), Ok(()));
    }

    /// Checks that a case is refused by this number with something else in it, and by no other; its
    /// own answer may not stand there too.
    fn check_refused(case: &str, answer: &str, from: &str, to: &str, number: u8) {
        let (lent, _) = case.split_once(answer).expect("an answer");
        let refused = format!("{}refused: {number}", lent.replacen(from, to, 1));
        assert_eq!(only("a.txt", &refused), Ok(()), "{to}");
        expect_wrong(&refused, "refused: ", "refused: 1");
        expect_wrong(&refused, "refused: ", &format!("{answer}\nrefused: "));
    }

    #[test]
    fn refusals_that_hold() {
        let write = |from, to, number| check_refused(WRITE, "length: 10", from, to, number);
        write("op: 30+00*255", "op: 30", 1);
        write("00*510", "00*509", 2);
        write("list: 0001", "list: -", 3);
        write("23*2060", "23*2050", 32);
        let open = |from, to, number| check_refused(OPEN, "routines: 1", from, to, number);
        open("op: 31*256", "op: -", 1);
        open("sheet: 33*512", "sheet: 33*511", 2);
        open("list: 34*128", "list: 34*2", 3);
        open("010001\n", "0100\n", 30);
        open("010001\n", "000001\n", 31);
    }

    #[test]
    fn written_files_that_do_not_hold() {
        let wrong = |from, to| expect_wrong(WRITE, from, to);
        wrong("length: 10", "length: 9");
        wrong("length: 10", "refused: 32");
        wrong("\nlength: 10", "");
        wrong("buffer-after: 01", "buffer-after: 02");
        wrong("+23*2050", "+24*2050");
        wrong("+23*2050", "+23*2049");
        wrong("\nbuffer-after: 0130C801808002010001+23*2050", "");
        wrong("op: 30+", "op: 31+");
        wrong("\nlist: 0001", "");
        wrong("\nlength", "\nfile: -\nlength");
    }

    #[test]
    fn opened_files_that_do_not_hold() {
        let wrong = |from, to| expect_wrong(OPEN, from, to);
        wrong("routines: 1", "routines: 2");
        wrong("routines: 1", "refused: 30");
        wrong("\nroutines: 1", "");
        wrong("op-after: 30", "op-after: 31");
        wrong("arg-after: C8", "arg-after: C9");
        wrong("sheet-after: 0080", "sheet-after: 0000");
        wrong("list-after: 0001+00*126", "list-after: 0001+34*126");
        wrong("\nlist-after: 0001+00*126", "");
        wrong("010001\n", "0100\n");
        wrong("\nroutines", "\nbuffer: -\nroutines");
    }
}
