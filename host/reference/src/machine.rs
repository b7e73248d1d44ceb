//! A run: steps up to the first reason to stop, counted and timed.

mod step;

use super::{Form, Instruction};
use cesca_types::{Lent, Overflow, Refusal, Report, State, Stop, BANK, MOST_STEPS};

/// A step as it was made.
#[derive(Clone, Copy, Debug)]
pub struct Step {
    /// The instruction executed.
    pub instruction: Instruction,
    /// The state before it.
    pub before: State,
    /// The state after it.
    pub after: State,
}

/// What a run of at most `budget` steps from `start` reports, or why there is none.
pub fn run(lent: Lent<'_>, budget: u32, start: State) -> Result<Report, Refusal> {
    run_watched(lent, budget, start, |_| ())
}

/// The same, with every step shown to `watch` once it is made.
pub fn run_watched(
    lent: Lent<'_>,
    budget: u32,
    start: State,
    mut watch: impl FnMut(Step),
) -> Result<Report, Refusal> {
    check(&lent, budget, start)?;
    let mut machine = Machine { lent, state: start, words: 0 };
    let (mut steps, mut cycles) = (0, 0);
    loop {
        let instruction = machine.instruction();
        if let Some(stop) = machine.stop(instruction.form, steps == budget) {
            let Machine { state, words, .. } = machine;
            return Ok(Report { stop, steps, cycles, words, state });
        }
        let before = machine.state;
        machine.step(instruction);
        steps += 1;
        cycles += u32::from(instruction.form.cycles());
        watch(Step { instruction, before, after: machine.state });
    }
}

/// The stop that prevents the next step of a machine that has steps left, if one does.
pub(super) fn next_stop(lent: Lent<'_>, state: State) -> Option<Stop> {
    let machine = Machine { lent, state, words: 0 };
    machine.stop(machine.instruction().form, false)
}

/// Whether a run may begin.
fn check(lent: &Lent<'_>, budget: u32, start: State) -> Result<(), Refusal> {
    let banks = [lent.opcodes, lent.arguments, lent.ram, lent.stack];
    if banks.into_iter().any(|bank| bank.len() != BANK) {
        Err(Refusal::of_call(17))
    } else if start.position > lent.keys.len() {
        Err(Refusal::of_call(18))
    } else if budget > MOST_STEPS {
        Err(Refusal::of_call(19))
    } else {
        Ok(())
    }
}

/// A run under way.
struct Machine<'a> {
    lent: Lent<'a>,
    state: State,
    /// The words written to the roll so far.
    words: usize,
}

impl Machine<'_> {
    /// The instruction at PC.
    fn instruction(&self) -> Instruction {
        let at = usize::from(self.state.pc);
        Instruction::of_word([self.lent.opcodes[at], self.lent.arguments[at]])
    }

    /// The first reason not to make the step, if there is one.
    fn stop(&self, form: Form, spent: bool) -> Option<Stop> {
        let unsettled = self.state.flags.v == Overflow::Unsettled;
        let full = self.words == self.lent.roll.len();
        if self.state.halted {
            Some(Stop::Halted)
        } else if spent {
            Some(Stop::Spent)
        } else if form.tests_overflow() && unsettled {
            Some(Stop::Unsettled)
        } else if form.writes_roll() && full {
            Some(Stop::Full)
        } else {
            None
        }
    }
}
