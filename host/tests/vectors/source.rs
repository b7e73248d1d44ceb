//! Listings as text: the calls of request 1.

use crate::banks::Banks;
use crate::blocks::Block;
use crate::file::Outcome;
use crate::sides::{Answer, Printed, ASSEMBLERS, PRINTERS};
use crate::values::{bytes, number, text};
use cesca::{decode, Fields, BANK};
use reference::{Form, Instruction};

/// Whether both assemblers answer and leave what the case says.
pub fn assemble(block: &Block) -> Outcome {
    block.expect_keys(&["op", "arg", "text", "words", "op-after", "arg-after", "refused"])?;
    let [opcodes, arguments] = [bytes(block.value("op")?)?, bytes(block.value("arg")?)?];
    let after = |key, before: &Vec<u8>| block.optional(key)?.map_or(Ok(before.clone()), bytes);
    let wanted = Banks::new(&after("op-after", &opcodes)?, &after("arg-after", &arguments)?);
    let before = Banks::new(&opcodes, &arguments);
    assembled(&text(block.value("text")?)?, &before, answer(block)?, &wanted)
}

/// Whether both assemblers answer this on a text and leave this in the banks.
fn assembled(text: &[u8], before: &Banks, answer: Answer, wanted: &Banks) -> Outcome {
    for (name, assembler) in ASSEMBLERS {
        let (found, after) = before.lent(assembler, text);
        if found != answer {
            return Err(format!("{name} answers {found:?}, wanted {answer:?}"));
        }
        let differences = after.differences(wanted);
        if !differences.is_empty() {
            return Err(format!("{name} leaves {}", differences.join("; ")));
        }
    }
    Ok(())
}

/// The answer that a case wants.
fn answer(block: &Block) -> Result<Answer, String> {
    match (block.optional("words")?, block.optional("refused")?) {
        (Some(words), None) => Ok(Ok(number(words)?)),
        (None, Some(refused)) => {
            let (ground, line) = refused.split_once(" at ").unwrap_or((refused, "0"));
            Ok(Err((number(ground)?, number(line)?)))
        }
        _ => Err("words or refused, one of them".to_string()),
    }
}

/// Whether both printers answer what the case says.
pub fn print(block: &Block) -> Outcome {
    block.expect_keys(&["form", "fields", "printed", "refused"])?;
    let row = block.value("form")?;
    let form = Form::ALL.into_iter().find(|form| form.mnemonic().replace('*', "") == row);
    let form = form.ok_or_else(|| format!("{row:?} is no row of the table"))?;
    let wanted = match (block.optional("printed")?, block.optional("refused")?) {
        (Some(text), None) => Ok(text.to_string()),
        (None, Some(refused)) => Err(number(refused)?),
        _ => return Err("printed or refused, one of them".to_string()),
    };
    printed(fields(form, block.value("fields")?)?, wanted)
}

/// Whether both printers answer this.
fn printed(fields: Fields, wanted: Printed) -> Outcome {
    for (name, printer) in PRINTERS {
        let found = printer(fields);
        if found != wanted {
            return Err(format!("{name} answers {found:?}, wanted {wanted:?}"));
        }
    }
    Ok(())
}

/// A form with these fields, such as `Rd=1 Imm8=200`, and 0 in the others; `-` is none.
fn fields(form: Form, value: &str) -> Result<Fields, String> {
    let mut fields = Fields { form: form.row(), ..Fields::default() };
    for field in value.split(' ').filter(|field| *field != "-") {
        let (name, digits) = field.split_once('=').ok_or("a field without a number")?;
        let place = match name {
            "Rd" => &mut fields.d,
            "Ra" => &mut fields.a,
            "Rb" => &mut fields.b,
            "F" => &mut fields.f,
            "Imm8" | "Addr8" => &mut fields.imm,
            _ => return Err(format!("no field {name:?}")),
        };
        *place = number(digits)?;
    }
    Ok(fields)
}

/// Whether a word is printed as the line says, and the text assembled to the word that it says.
pub fn word(line: &str) -> Outcome {
    let parts: Vec<&str> = line.split('|').collect();
    let [word, shown, clean] = parts[..] else { return Err("three parts".to_string()) };
    let [word, clean] = [pair(word)?, pair(clean)?];
    for fields in [decode(word), Instruction::decode(word).into()] {
        printed(fields, Ok(shown.to_string()))?;
    }
    assembled(shown.as_bytes(), &Banks::old(BANK, BANK), Ok(1), &Banks::filled(&[clean]))
}

/// Opcode and argument.
fn pair(value: &str) -> Result<[u8; 2], String> {
    bytes(value)?.try_into().map_err(|_| format!("{value:?} is no word"))
}
