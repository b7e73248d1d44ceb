//! What the lists of runs came to, so that nothing goes untested.

use cesca::{Class, Refusal, Report};
use reference::Instruction;

/// How often each thing was met.
#[derive(Debug, Default)]
pub struct Outcomes {
    /// Runs by their stop.
    stops: [u64; 4],
    /// Refused calls by their ground, from 17.
    refusals: [u64; 3],
    /// Steps by class.
    classes: [u64; 10],
    /// Steps that test V.
    tests: u64,
    /// Steps after which routine 0's need was used to its last byte.
    full: u64,
}

impl Outcomes {
    /// Counts an answer.
    pub fn answer(&mut self, answer: &Result<Report, Refusal>) {
        match answer {
            Ok(report) => self.stops[report.stop as usize] += 1,
            Err(refusal) => self.refusals[usize::from(refusal.number()) - 17] += 1,
        }
    }

    /// Counts a step.
    pub fn step(&mut self, instruction: Instruction, full: bool) {
        self.classes[instruction.form.class() as usize] += 1;
        self.tests += u64::from(instruction.form.tests_overflow());
        self.full += u64::from(full);
    }

    /// Checks that everything but a stop at V and a jump to a register was met often enough.
    pub fn check(&self) {
        let [halted, spent, _, full] = self.stops;
        let classes = self.classes.into_iter().enumerate();
        let met = classes.filter(|(class, _)| *class != Class::JumpRegister as usize);
        let often = met.map(|(_, count)| count).chain([halted, spent, full, self.tests, self.full]);
        assert!(often.into_iter().all(|count| count >= 1_000), "{self:?}");
        assert!(self.refusals.iter().all(|count| *count >= 100), "{self:?}");
    }
}
