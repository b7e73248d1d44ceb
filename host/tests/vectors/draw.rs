//! Sheets drawn for members: the call of request 2.

use crate::blocks::Block;
use crate::drawers::{Answer, DRAWERS};
use crate::file::Outcome;
use crate::sheets::Buffers;
use crate::values::{bytes, number};

/// Whether both drawers answer and leave what the case says.
pub fn draw(block: &Block) -> Outcome {
    let lent = ["op", "arg", "sheet", "list"];
    let answers = ["routines", "sheet-after", "list-after", "refused"];
    block.expect_keys(&[lent, answers].concat())?;
    let [opcodes, arguments, sheet, list] = lent.map(|key| block.value(key).and_then(bytes));
    let (opcodes, arguments, sheet, list) = (opcodes?, arguments?, sheet?, list?);
    let after = |key, before: &Vec<u8>| block.optional(key)?.map_or(Ok(before.clone()), bytes);
    let wanted = Buffers::new(&after("sheet-after", &sheet)?, &after("list-after", &list)?);
    let before = Buffers::new(&sheet, &list);
    let answer = answer(block)?;
    for (name, drawer) in DRAWERS {
        let (found, left) = before.lent(drawer, &opcodes, &arguments);
        if found != answer {
            return Err(format!("{name} answers {found:?}, wanted {answer:?}"));
        }
        let differences = left.differences(&wanted);
        if !differences.is_empty() {
            return Err(format!("{name} leaves {}", differences.join("; ")));
        }
    }
    Ok(())
}

/// The answer that a case wants.
fn answer(block: &Block) -> Result<Answer, String> {
    match (block.optional("routines")?, block.optional("refused")?) {
        (Some(routines), None) => Ok(Ok(number(routines)?)),
        (None, Some(refused)) => Ok(Err(number(refused)?)),
        _ => Err("routines or refused, one of them".to_string()),
    }
}
