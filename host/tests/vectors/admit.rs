//! Admission: the call of the base.

use crate::blocks::Block;
use crate::file::Outcome;
use crate::memory::Guarded;
use crate::values::{bytes, number};
use cesca::Refusal;

/// What a case lends.
const LENT: [&str; 4] = ["op", "arg", "sheet", "list"];

/// Admission of opcodes, arguments, sheet and list.
type Admission = fn(&[u8], &[u8], &[u8], &[u8]) -> Result<(), Refusal>;

/// The admissions by name.
const ADMISSIONS: [(&str, Admission); 2] =
    [("the library", cesca::admit), ("the reference", reference::admit)];

/// Whether both admissions answer what the case says, and leave what they are lent.
pub fn admit(block: &Block) -> Outcome {
    block.expect_keys(&[&LENT[..], &["answer"]].concat())?;
    let wanted: u32 = number(block.value("answer")?)?;
    let [opcodes, arguments, sheet, list] =
        LENT.map(|key| block.value(key).and_then(bytes).map(Guarded::new));
    let before = [opcodes?, arguments?, sheet?, list?];
    for (name, admission) in ADMISSIONS {
        let lent = before.clone();
        let [opcodes, arguments, sheet, list] = lent.each_ref().map(Guarded::inner);
        let answer = admission(opcodes, arguments, sheet, list);
        let found = answer.map_or_else(|refusal| refusal.answer(), |()| 0);
        if found != wanted {
            return Err(format!("{name} answers {found}, wanted {wanted}"));
        }
        if lent != before {
            return Err(format!("{name} wrote to what it was lent"));
        }
    }
    Ok(())
}

#[cfg(test)]
mod tests {
    use crate::file::only;

    /// mov R0, R1, jlt 2 and hlt, V being marked at 1, but for the answer.
    const MOVED: &str = "case: a\ncall: admit\nop: 00D8F8+00*253\narg: 0102+00*254\n\
        sheet: 008000C00080+00*506\nlist: 0000\nanswer: ";

    /// The outcome of the case with something else in it, if it has this answer.
    fn outcome(from: &str, to: &str, answer: u32) -> Result<(), String> {
        only("a.txt", &format!("{}{answer}", MOVED.replacen(from, to, 1)))
    }

    #[test]
    fn admissions_that_hold() {
        assert_eq!(outcome("", "", 0), Ok(()));
        assert_eq!(outcome("op: 00", "op: 28", 16), Ok(())); // mask R0, 1
        assert_eq!(outcome("00C0", "0080", 10 + 256), Ok(()));
        assert_eq!(outcome("op: 00D8F8+00*253", "op: -", 1), Ok(()));
        assert_eq!(outcome("00*506", "00*505", 2), Ok(()));
        assert_eq!(outcome("list: 0000", "list: -", 3), Ok(()));
    }

    #[test]
    fn admissions_that_do_not_hold() {
        assert!(outcome("", "", 16).is_err());
        assert!(outcome("op: 00", "op: 28", 0).is_err());
        assert!(outcome("00C0", "0080", 10).is_err());
        assert!(outcome("00C0", "0080", 10 + 2 * 256).is_err());
        assert!(outcome("answer", "answer: 0\nanswer", 0).is_err());
        assert!(outcome("answer", "refused: 0\nanswer", 0).is_err());
        assert!(outcome("answer", "why", 0).is_err());
    }
}
