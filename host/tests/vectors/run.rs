//! Runs without counters and page: the call of the base.

use crate::blocks::Block;
use crate::file::Outcome;
use crate::memory::{Guarded, Memory};
use crate::values::{bytes, number, numbers, state};
use cesca::{Lent, Refusal, Report, State, Stop};

/// What every run lends.
pub const LENT: [&str; 8] = ["op", "arg", "data", "stack", "keys", "roll", "state", "budget"];

/// What a case says of every run's answer, unless it is refused.
pub const ANSWERS: [&str; 5] = ["stop", "steps", "cycles", "words", "state-after"];

/// What it says of the buffers afterwards.
pub const LEFT: [&str; 3] = ["data-after", "stack-after", "roll-after"];

/// The stops.
const STOPS: [Stop; 4] = [Stop::Halted, Stop::Spent, Stop::Unsettled, Stop::Full];

/// A machine: what a run reports, or why it is refused.
type Machine = fn(Lent<'_>, u32, State) -> Result<Report, Refusal>;

/// The machines by name.
const MACHINES: [(&str, Machine); 2] =
    [("the library", cesca::run), ("the reference", reference::run)];

/// Whether both machines answer and leave what the case says.
pub fn run(block: &Block) -> Outcome {
    let answers = [&ANSWERS[..], &LEFT].concat();
    block.expect_keys(&[&LENT[..], &answers, &["refused"]].concat())?;
    let (budget, start) = call(block)?;
    let before = lent(block, "roll")?;
    let wanted = left(block, &before)?;
    let answer = match refused(block, &answers)? {
        Some(number) => Err(number),
        None => Ok(report(block)?),
    };
    for (name, machine) in MACHINES {
        let mut left = before.clone();
        let found = machine(left.lend(), budget, start).map_err(|refusal| refusal.number());
        if found != answer {
            return Err(format!("{name} answers {found:?}, wanted {answer:?}"));
        }
        if left != wanted {
            return Err(format!("{name} leaves {}", left.differences(&wanted)));
        }
    }
    Ok(())
}

/// The budget and the state to start from.
pub fn call(block: &Block) -> Result<(u32, State), String> {
    Ok((number(block.value("budget")?)?, state(block.value("state")?)?))
}

/// The buffers that a case lends, the roll under this key.
pub fn lent(block: &Block, roll: &str) -> Result<Memory, String> {
    let guarded = |key| block.value(key).and_then(bytes).map(Guarded::new);
    Ok(Memory {
        opcodes: guarded("op")?,
        arguments: guarded("arg")?,
        keys: guarded("keys")?,
        ram: guarded("data")?,
        stack: guarded("stack")?,
        roll: Guarded::new(numbers(block.value(roll)?)?),
    })
}

/// What a case wants the buffers to hold that held this before.
pub fn left(block: &Block, before: &Memory) -> Result<Memory, String> {
    let mut after = before.clone();
    if let Some(data) = block.optional("data-after")? {
        after.ram = Guarded::new(bytes(data)?);
    }
    if let Some(stack) = block.optional("stack-after")? {
        after.stack = Guarded::new(bytes(stack)?);
    }
    if let Some(roll) = block.optional("roll-after")? {
        after.roll = Guarded::new(numbers(roll)?);
    }
    Ok(after)
}

/// The number by which a case is refused, beside which none of these keys may stand.
pub fn refused(block: &Block, answers: &[&str]) -> Result<Option<u8>, String> {
    let Some(refused) = block.optional("refused")? else { return Ok(None) };
    for key in answers {
        if block.optional(key)?.is_some() {
            return Err(format!("{key} beside refused"));
        }
    }
    number(refused).map(Some)
}

/// The report that a case wants.
pub fn report(block: &Block) -> Result<Report, String> {
    let name = block.value("stop")?;
    let stop = STOPS.into_iter().find(|stop| stop.to_string() == name);
    Ok(Report {
        stop: stop.ok_or_else(|| format!("{name:?} is no stop"))?,
        steps: number(block.value("steps")?)?,
        cycles: number(block.value("cycles")?)?,
        words: number(block.value("words")?)?,
        state: state(block.value("state-after")?)?,
    })
}

#[cfg(test)]
mod tests {
    use crate::file::{expect_wrong, only};

    /// A run of push R1, mov [5], R1, mov LCD, R1, mov R0, R1 and hlt.
    const RUN: &str = "case: a\ncall: run\nop: 5D55E901F8+00*251\narg: 0005000100+00*251\n\
        data: 11*256\nstack: 22*256\nkeys: -\nroll: 7*2\nstate: 0 128 0 0 0 255 0 1 1 - 0 0 0\n\
        budget: 9\nstop: halted\nsteps: 5\ncycles: 18\nwords: 1\n\
        state-after: 128 128 0 0 5 254 0 0 0 0 1 1 0\ndata-after: 11*5+80+11*250\n\
        stack-after: 22*254+8022\nroll-after: 128,7";

    #[test]
    fn runs_that_hold() {
        assert_eq!(only("a.txt", RUN), Ok(()));
        let (lent, _) = RUN.split_once("\nstop").expect("a stop");
        for (from, to, number) in
            [("data: 11*256", "data: 11*255", 17), ("0 0\nbudget", "0 1\nbudget", 18)]
        {
            let refused = format!("{}\nrefused: {number}", lent.replacen(from, to, 1));
            assert_eq!(only("a.txt", &refused), Ok(()), "{refused}");
        }
        let long = lent.replacen("budget: 9", "budget: 1000001", 1);
        assert_eq!(only("a.txt", &format!("{long}\nrefused: 19")), Ok(()));
    }

    #[test]
    fn runs_that_do_not_hold() {
        let wrong = |from, to| expect_wrong(RUN, from, to);
        wrong("stop: halted", "stop: spent");
        wrong("stop: halted", "stop: later");
        wrong("\nsteps: 5", "\nsteps: 4");
        wrong("cycles: 18", "cycles: 17");
        wrong("words: 1", "words: 2");
        wrong("254 0 0 0 0 1 1 0", "254 0 0 0 - 1 1 0");
        wrong("state-after: 128", "state-after: 129");
        wrong("data-after: 11*5+80", "data-after: 11*5+81");
        wrong("\ndata-after: 11*5+80+11*250", "");
        wrong("stack-after: 22*254+80", "stack-after: 22*254+81");
        wrong("\nstack-after: 22*254+8022", "");
        wrong("roll-after: 128,7", "roll-after: 128,8");
        wrong("\nroll-after: 128,7", "");
        wrong("\nwords: 1", "\nwords: 1\nlines: 5");
        wrong("\nwords: 1", "\nwords: 1\nrefused: 17");
        wrong("\nwords: 1", "");
    }

    #[test]
    fn refused_runs_that_do_not_hold() {
        let (lent, _) = RUN.split_once("\nstop").expect("a stop");
        let short = lent.replacen("stack: 22*256", "stack: 22*255", 1);
        assert_eq!(only("a.txt", &format!("{short}\nrefused: 17")), Ok(()));
        for wrong in ["refused: 18", "why: nothing", "refused: 17\nstack-after: 23*255"] {
            assert!(only("a.txt", &format!("{short}\n{wrong}")).is_err(), "{wrong}");
        }
    }
}
