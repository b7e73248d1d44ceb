//! A page of busy addresses: the run of request 3, with counters and page.

use crate::blocks::Block;
use crate::buffers::Buffers;
use crate::file::Outcome;
use crate::memory::Guarded;
use crate::run::{self, refused, report};
use crate::runners::RUNNERS;
use crate::values::{bytes, number, numbers, text};
use cesca::BusyReport;

/// What a case lends beside what every run does.
pub const RECORDS: [&str; 2] = ["counters", "page"];

/// What it says of them afterwards, and of the answer.
const RECORDED: [&str; 3] = ["counters-after", "page-begins", "lines"];

/// Whether both busy runs answer and leave what the case says.
pub fn run(block: &Block) -> Outcome {
    let answers = [&run::ANSWERS[..], &run::LEFT, &RECORDED].concat();
    block.expect_keys(&[&run::LENT[..], &RECORDS, &answers, &["refused"]].concat())?;
    let (budget, start) = run::call(block)?;
    let before = lent(block)?;
    let wanted = left(block, &before)?;
    let answer = match refused(block, &answers)? {
        Some(number) => Err(number),
        None => Ok(BusyReport { report: report(block)?, lines: number(block.value("lines")?)? }),
    };
    for (name, runner) in RUNNERS {
        let (found, left) = before.lent(runner, budget, start);
        if found != answer {
            return Err(format!("{name} answers {found:?}, wanted {answer:?}"));
        }
        if left != wanted {
            return Err(format!("{name} leaves {}", left.differences(&wanted)));
        }
    }
    Ok(())
}

/// The buffers that a case lends.
fn lent(block: &Block) -> Result<Buffers, String> {
    let counters = Guarded::new(numbers(block.value("counters")?)?);
    let page = Guarded::new(bytes(block.value("page")?)?);
    Ok(Buffers { memory: run::lent(block, "roll")?, counters, page })
}

/// What a case wants the buffers to hold that held this before.
fn left(block: &Block, before: &Buffers) -> Result<Buffers, String> {
    let mut after = Buffers { memory: run::left(block, &before.memory)?, ..before.clone() };
    if let Some(counters) = block.optional("counters-after")? {
        after.counters = Guarded::new(numbers(counters)?);
    }
    if let Some(begins) = block.optional("page-begins")? {
        let begins = text(begins)?;
        let page = after.page.inner_mut().get_mut(..begins.len());
        page.ok_or("more than the page has room for")?.copy_from_slice(&begins);
    }
    Ok(after)
}

#[cfg(test)]
mod tests {
    use crate::file::{expect_wrong, only};

    /// A busy run of `jmp 0`.
    const JUMPS: &str = "case: a\ncall: run\nop: A0*256\narg: 00*256\ndata: 11*256\n\
        stack: 22*256\nkeys: -\nroll: 7*2\nstate: 0 0 0 0 0 255 0 0 0 - 0 0 0\nbudget: 12\n\
        counters: 5*256\npage: 23*8960\nstop: spent\nsteps: 12\ncycles: 36\nwords: 0\nlines: 1\n\
        state-after: 0 0 0 0 0 255 0 0 0 - 0 0 0\ncounters-after: 12,0*255\n\
        page-begins: 00      12 jmp 0                  \\n";

    #[test]
    fn busy_runs_that_hold() {
        assert_eq!(only("a.txt", JUMPS), Ok(()));
        let (lent, _) = JUMPS.split_once("\nstop").expect("a stop");
        let short = lent.replace("8960", "8959");
        assert_eq!(only("a.txt", &format!("{short}\nrefused: 17")), Ok(()));
    }

    #[test]
    fn busy_runs_that_do_not_hold() {
        let wrong = |from, to| expect_wrong(JUMPS, from, to);
        wrong("stop: spent", "stop: full");
        wrong("stop: spent", "stop: later");
        wrong("\nsteps: 12", "\nsteps: 11");
        wrong("cycles: 36", "cycles: 35");
        wrong("words: 0", "words: 1");
        wrong("lines: 1", "lines: 2");
        wrong("state-after: 0", "state-after: 1");
        wrong("after: 12,0*255", "after: 12,0*254,5");
        wrong("\ncounters-after: 12,0*255", "");
        wrong("\nlines: 1", "\nlines: 1\nroll-after: 7,8");
        wrong("\nlines: 1", "\nlines: 1\ndata-after: 12*256");
        wrong("\nlines: 1", "\nlines: 1\nstack-after: 12*256");
        wrong("\nlines: 1", "\nlines: 1\nrefused: 17");
        wrong("\nlines: 1", "");
        wrong("page: 23*8960", "page: 23*8959");
        wrong("\npage: 23*8960", "");
        wrong("\ncounters: 5*256", "");
        wrong("jmp 0                  \\n", "jmp 0                 #\\n");
        wrong("page-begins: 00      12 jmp 0                  \\n", "page-begins: ");
        wrong("page-begins: 00      12 jmp 0                  \\n", "why: no");
    }
}
