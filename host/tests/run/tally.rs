//! What random runs came to, so that nothing goes untested.

use cesca::{Class, Refusal, Report};
use reference::{Form, Step};

/// How often each thing was met.
pub struct Tally {
    /// Steps by the form's row.
    forms: [u64; Form::ALL.len()],
    /// Runs by their stop.
    stops: [u64; 4],
    /// Refused calls by their ground, from 17.
    refusals: [u64; 3],
    /// Steps on from 255 to 0, `call` to its return address included.
    pc_wraps: u64,
    /// Bytes put on the stack with SP at 0.
    wraps_down: u64,
    /// Bytes taken from the stack with SP at 255.
    wraps_up: u64,
    /// Acks at the end of the keys.
    late_acks: u64,
}

impl Tally {
    /// The tally before the first run.
    pub fn new() -> Tally {
        Tally {
            forms: [0; Form::ALL.len()],
            stops: [0; 4],
            refusals: [0; 3],
            pc_wraps: 0,
            wraps_down: 0,
            wraps_up: 0,
            late_acks: 0,
        }
    }

    /// Counts a step.
    pub fn step(&mut self, Step { instruction, before, after }: Step) {
        let form = instruction.form;
        self.forms[form as usize] += 1;
        let (puts, takes, goes_on) = match form.class() {
            Class::Push => (true, false, true),
            Class::Call => (true, false, true),
            Class::Pop => (false, true, true),
            Class::Return => (false, true, false),
            Class::Jump | Class::JumpRegister | Class::Branch => (false, false, false),
            Class::Next | Class::Swap | Class::Halt => (false, false, true),
        };
        self.pc_wraps += u64::from(goes_on && before.pc == 255);
        self.wraps_down += u64::from(puts && before.sp == 0);
        self.wraps_up += u64::from(takes && before.sp == 255);
        let late = form == Form::Ack && before.position == after.position;
        self.late_acks += u64::from(late);
    }

    /// Counts an outcome.
    pub fn outcome(&mut self, outcome: &Result<Report, Refusal>) {
        match outcome {
            Ok(report) => self.stops[report.stop as usize] += 1,
            Err(refusal) => self.refusals[usize::from(refusal.number()) - 17] += 1,
        }
    }

    /// Checks that everything was met often enough.
    pub fn check(&self) {
        for (form, count) in Form::ALL.into_iter().zip(self.forms) {
            assert!(count >= 10_000, "{} was executed {count} times", form.mnemonic());
        }
        assert!(self.stops.into_iter().all(|count| count >= 1_000), "stops: {:?}", self.stops);
        let refusals = self.refusals;
        assert!(refusals.into_iter().all(|count| count >= 1_000), "refusals: {refusals:?}");
        let edges = [self.pc_wraps, self.wraps_down, self.wraps_up, self.late_acks];
        assert!(edges.into_iter().all(|count| count >= 1_000), "edges: {edges:?}");
    }
}
