//! Calls of a list, made at once or step by step.

use crate::memory::{Guarded, Memory};
use crate::row::Found;
use crate::script::Call;
use cesca::{decode, run, Lent, Refusal, Report, State, Stop};
use reference::Instruction;

/// A list under way: its banks and the state reached.
#[derive(Clone)]
pub struct Player {
    pub memory: Memory,
    pub state: State,
}

impl Player {
    /// What a call reports, or why it is refused; a refused one leaves all as it was.
    pub fn call(&mut self, call: &Call) -> Result<Report, Refusal> {
        let start = call.restart.unwrap_or(self.state);
        let mut lent = self.lent(call);
        let before = lent.clone();
        let answer = run(lent.lend(), call.budget, start);
        match &answer {
            Ok(report) => *self = Player { memory: lent, state: report.state },
            Err(_) => assert!(lent == before, "a refused call wrote: {call:?}"),
        }
        answer
    }

    /// What a call is lent.
    fn lent(&self, call: &Call) -> Memory {
        let mut lent = self.memory.clone();
        lent.keys = Guarded::new(call.keys.iter().copied());
        lent.roll = Guarded::new(call.roll.iter().copied());
        if let Some((bank, bytes)) = &call.wrong {
            *bank(&mut lent) = Guarded::new(bytes.iter().copied());
        }
        lent
    }

    /// The same call made step by step, each shown to `watch`; it isn't refused.
    pub fn watched(&mut self, call: &Call, mut watch: impl FnMut(Found)) -> Report {
        let start = call.restart.unwrap_or(self.state);
        let mut memory = self.lent(call);
        let mut total = run(memory.lend(), 0, start).expect("not refused as a whole");
        while total.steps < call.budget {
            let (sp, pc) = (usize::from(total.state.sp), usize::from(total.state.pc));
            let at_sp = memory.stack.inner()[sp];
            let instruction = instruction(&memory, pc);
            let one = run(rest(&mut memory, total.words), 1, total.state).expect("as before");
            if one.steps == 1 {
                watch(Found { instruction, before: total.state, after: one.state, at_sp });
            }
            total = joined(total, one);
            if one.stop != Stop::Spent {
                break;
            }
        }
        *self = Player { memory, state: total.state };
        total
    }
}

/// The instruction at an address.
fn instruction(memory: &Memory, at: usize) -> Instruction {
    decode([memory.opcodes.inner()[at], memory.arguments.inner()[at]]).into()
}

/// All of the memory, lent with the roll after so many words.
fn rest(memory: &mut Memory, words: usize) -> Lent<'_> {
    let lent = memory.lend();
    Lent { roll: &mut lent.roll[words..], ..lent }
}

/// The report of two runs, one after the other.
fn joined(first: Report, second: Report) -> Report {
    Report {
        steps: first.steps + second.steps,
        cycles: first.cycles + second.cycles,
        words: first.words + second.words,
        ..second
    }
}
