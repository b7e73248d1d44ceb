//! A run that goes on step by step.

use crate::program::console::Console;
use crate::program::failure::Failure;
use crate::program::owners::Owners;
use cesca::{instruction_text, Admitted, Board, Flags, Overflow, State, Stop, MOST_STEPS};
use std::ffi::OsStr;
use std::io::{self, Write};

/// A listing on a board, with its keys and the owners of what is on the stack.
pub struct Session<'a> {
    admitted: &'a Admitted,
    keys: &'a [u8],
    board: Board,
    owners: Owners,
}

impl<'a> Session<'a> {
    /// A listing in the start state, with zero data and stack.
    pub fn new(admitted: &'a Admitted, keys: &'a [u8]) -> Session<'a> {
        let board = admitted.board().with_roll(MOST_STEPS as usize);
        Session { admitted, keys, board, owners: Owners::default() }
    }

    /// Makes so many steps, and shows the state between them; yields the stop if there is one.
    pub fn steps(
        &mut self,
        console: &mut Console,
        name: &OsStr,
        number: u64,
    ) -> Result<Option<Stop>, Failure> {
        for made in 0..number {
            if made > 0 {
                self.show(console)?;
            }
            let before = *self.board.state();
            let report = self.board.step(self.keys);
            let report = report.map_err(|refusal| Failure::of_refusal(name, &refusal))?;
            if report.steps > 0 {
                self.owners.step(self.admitted.listing(), &before);
            }
            if report.stop != Stop::Spent {
                return Ok(Some(report.stop));
            }
        }
        Ok(None)
    }

    /// Writes the instruction that comes next, the registers and the stack from its top.
    pub fn show(&self, console: &mut Console) -> io::Result<()> {
        let State { regs: [r0, r1, r2, r3], pc, sp, out, flags, .. } = *self.board.state();
        let Flags { z, c, s, v } = flags;
        let [z, c, s] = [z, c, s].map(u8::from);
        let v = match v {
            Overflow::Clear => '0',
            Overflow::Set => '1',
            Overflow::Unsettled => '-',
        };
        let instruction = instruction_text(self.admitted.listing().instruction(pc));
        writeln!(console, "{pc}: {instruction}")?;
        write!(console, "  R0 {r0}  R1 {r1}  R2 {r2}  R3 {r3}  PC {pc}  SP {sp}  OUT {out}")?;
        writeln!(console, "  Z {z}  C {c}  V {v}  S {s}")?;
        for entry in self.owners.entries() {
            writeln!(console, "  stack: {entry}")?;
        }
        Ok(())
    }
}
