//! A file of cases, and which check each of them goes to.

use crate::blocks::{blocks, Block};
use crate::{admit, busy, draw, run, shelf, shifts, source, turns};

/// Whether a case holds, or what is wrong.
pub type Outcome = Result<(), String>;

/// What checks a block.
type OfBlock = fn(&Block) -> Outcome;

/// What checks a line.
type OfLine = fn(&str) -> Outcome;

/// The calls, each with its check.
const CALLS: [(&str, OfBlock); 8] = [
    ("assemble", source::assemble),
    ("print", source::print),
    ("draw", draw::draw),
    ("run", plain_or_busy),
    ("admit", admit::admit),
    ("turns", turns::turns),
    ("shelf-write", shelf::write),
    ("shelf-open", shelf::open),
];

/// The files in which each line is a case, by the beginning of their names, with its check.
const LINES: [(&str, OfLine); 2] = [("words", source::word), ("shifts", shifts::shift)];

/// The outcomes of a file's cases, or of the file itself where it has none and should have.
pub fn outcomes(name: &str, text: &str) -> Vec<Outcome> {
    let of_lines = LINES.into_iter().find(|(start, _)| name.starts_with(start));
    let outcomes: Vec<Outcome> = match of_lines {
        Some((_, check)) => lines(text).map(|line| check(line).map_err(named(line))).collect(),
        None => blocks(text).iter().map(outcome).collect(),
    };
    let outcomes: Vec<Outcome> =
        outcomes.into_iter().map(|outcome| outcome.map_err(named(name))).collect();
    match outcomes.is_empty() && !only_told(name, text) {
        true => vec![Err(format!("{name}: no case"))],
        false => outcomes,
    }
}

/// Whether a file tells of readings on which no case hangs: in comments.
fn only_told(name: &str, text: &str) -> bool {
    name.starts_with("readings") && text.lines().any(|line| line.starts_with('#'))
}

/// The outcome of a block.
fn outcome(block: &Block) -> Outcome {
    let case = block.value("case")?;
    let call = block.value("call").map_err(named(case))?;
    let check = CALLS.into_iter().find(|(name, _)| *name == call);
    let (_, check) = check.ok_or_else(|| format!("{case}: no call {call:?} is known"))?;
    check(block).map_err(named(case))
}

/// The outcome of a run: a busy one, if counters or a page are lent.
fn plain_or_busy(block: &Block) -> Outcome {
    let records = busy::RECORDS.map(|key| block.optional(key));
    match records.iter().all(|record| *record == Ok(None)) {
        true => run::run(block),
        false => busy::run(block),
    }
}

/// The lines that aren't empty and no comments.
pub fn lines(text: &str) -> impl Iterator<Item = &str> {
    text.lines().filter(|line| !line.is_empty() && !line.starts_with('#'))
}

/// A message with the name of what it is about.
fn named(name: &str) -> impl Fn(String) -> String + '_ {
    move |message| format!("{name}: {message}")
}

/// The outcome of the one case of a file.
#[cfg(test)]
pub fn only(name: &str, text: &str) -> Outcome {
    let outcomes = outcomes(name, text);
    let [outcome] = &outcomes[..] else { panic!("{outcomes:?}") };
    outcome.clone()
}

/// Fails unless the one case of a file, which holds, no longer does with something else in it.
#[cfg(test)]
pub fn expect_wrong(case: &str, from: &str, to: &str) {
    let wrong = case.replacen(from, to, 1);
    assert_ne!(wrong, case, "{from:?}");
    assert!(only("a.txt", &wrong).is_err(), "{to}");
}

#[cfg(test)]
mod tests {
    use super::*;

    /// The one case of a file, with this as its last line.
    fn outcome(name: &str, first: &str, last: &str) -> Outcome {
        only(name, &format!("# cases\n{first}\n{last}\n"))
    }

    #[test]
    fn cases_that_hold() {
        let hlt = "case: a\ncall: assemble\nop: 55*256\narg: 55*256\ntext: hlt\nwords: 1\n\
                   op-after: F8+00*255";
        assert_eq!(outcome("a.txt", hlt, "arg-after: 00*256"), Ok(()));
        let bad = "case: a\ncall: assemble\nop: 55*256\narg: -\ntext: \\x00";
        assert_eq!(outcome("a.txt", bad, "refused: 1"), Ok(()));
        let push = "case: a\ncall: print\nform: push Ra\nfields: Ra=3";
        assert_eq!(outcome("a.txt", push, "printed: push R3"), Ok(()));
        assert_eq!(outcome("words.txt", "", "5FFF|push R3|5F00"), Ok(()));
        let hlt = "case: a\ncall: draw\nop: F8*256\narg: 00*256\nsheet: 11*512\nlist: 22*128\n\
                   routines: 1\nsheet-after: 0080+00*510";
        assert_eq!(outcome("a.txt", hlt, "list-after: 00*128"), Ok(()));
        let short = "case: a\ncall: draw\nop: F8*256\narg: 00*256\nsheet: 11*511\nlist: -";
        assert_eq!(outcome("a.txt", short, "refused: 2"), Ok(()));
    }

    #[test]
    fn cases_that_do_not_hold() {
        let wrong = |first: &str, last: &str| outcome("a.txt", first, last).is_err();
        let hlt = "case: a\ncall: assemble\nop: 55*256\narg: 55*256\ntext: hlt\n\
                   op-after: F8+00*255\narg-after: 00*256";
        assert!(!wrong(hlt, "words: 1"));
        assert!(wrong(hlt, "words: 2"));
        assert!(wrong(hlt, "refused: 24 at 1"));
        assert!(wrong(&hlt.replace("F8", "FC"), "words: 1"));
        assert!(wrong(&hlt.replace("\narg-after: 00*256", ""), "words: 1"));
        let halt = "case: a\ncall: assemble\nop: 55*256\narg: 55*256\ntext: nop\\nhalt";
        assert!(!wrong(halt, "refused: 24 at 2"));
        assert!(wrong(halt, "refused: 24 at 1"));
        assert!(wrong(halt, "refused: 25 at 2"));
        assert!(wrong(&format!("{halt}\nop-after: 00*256"), "refused: 24 at 2"));
        let push = "case: a\ncall: print\nform: push Ra\nfields: Ra=4";
        assert!(wrong(push, "printed: push R0"));
        assert!(wrong(push, "refused: 23"));
        assert!(outcome("words.txt", "", "5FFF|push R3|5FFF").is_err());
        assert!(outcome("words.txt", "", "5FFF|push R2|5E00").is_err());
    }

    #[test]
    fn drawings_that_do_not_hold() {
        let wrong = |first: &str, last: &str| outcome("a.txt", first, last).is_err();
        let hlt = "case: a\ncall: draw\nop: F8*256\narg: 00*256\nsheet: 11*512\nlist: 22*128\n\
                   sheet-after: 0080+00*510\nlist-after: 00*128";
        assert!(!wrong(hlt, "routines: 1"));
        assert!(wrong(hlt, "routines: 2"));
        assert!(wrong(hlt, "refused: 27"));
        assert!(wrong(hlt, "why: no answer"));
        assert!(wrong(&hlt.replace("0080+00", "00C0+00"), "routines: 1"));
        assert!(wrong(&hlt.replace("\nlist-after: 00*128", ""), "routines: 1"));
        let ret = "case: a\ncall: draw\nop: AC*256\narg: 00*256\nsheet: 11*512\nlist: 22*128";
        assert!(!wrong(ret, "refused: 27"));
        assert!(wrong(ret, "refused: 3"));
        assert!(wrong(ret, "routines: 1"));
        assert!(wrong(&format!("{ret}\nlist-after: 00*128"), "refused: 27"));
    }

    #[test]
    fn what_nobody_knows_is_told() {
        let told = |name: &str, text: &str| outcomes(name, text).swap_remove(0).unwrap_err();
        assert_eq!(told("a.txt", "# none\n"), "a.txt: no case");
        assert_eq!(told("words.txt", ""), "words.txt: no case");
        assert_eq!(told("readings.txt", "\n"), "readings.txt: no case");
        assert_eq!(outcomes("readings.txt", "# 'A sentence.' Chosen: one.\n"), []);
        let call = "case: b\ncall: fly\n";
        assert_eq!(told("a.txt", call), "a.txt: b: no call \"fly\" is known");
        let key = "case: b\ncall: print\nform: ret\nfields: -\nprinted: ret\ncolour: red\n";
        assert_eq!(told("a.txt", key), "a.txt: b: no key \"colour\" is known");
        let twice = "case: b\ncall: print\nform: ret\nfields: -\nfields: -\nprinted: ret\n";
        assert_eq!(told("a.txt", twice), "a.txt: b: fields stands twice");
        assert_eq!(told("a.txt", "case: b\n"), "a.txt: b: no call");
        assert_eq!(told("a.txt", "case: b\nno colon\n"), "a.txt: \"no colon\" is no key and value");
    }
}
