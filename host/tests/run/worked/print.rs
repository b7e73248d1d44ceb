//! What a run came to, as a line of text.

use cesca::{Flags, Overflow, Refusal, Report, State};
use std::fmt::Display;

/// What a run answered, and the state reached or, for a refusal, the one that it was to start from.
pub fn report(outcome: &Result<Report, Refusal>, start: State) -> String {
    match outcome {
        Ok(Report { stop, steps, cycles, words, state: reached }) => {
            format!("{stop} steps {steps} cycles {cycles} words {words} {}", state(*reached))
        }
        Err(refusal) => format!("{} {}", number(refusal), state(start)),
    }
}

/// The number of a refusal.
pub fn number(refusal: &Refusal) -> String {
    format!("refused {}", refusal.number())
}

/// PC, SP, the output register, R0 to R3, the flags and the key position.
fn state(state: State) -> String {
    let State { regs, pc, sp, out, position, .. } = state;
    let (regs, flags) = (numbers(&regs), flags(state.flags));
    format!("pc {pc} sp {sp} out {out} r {regs} {flags} key {position}")
}

/// The flags; an unsettled V is a dash.
pub fn flags(Flags { z, c, s, v }: Flags) -> String {
    let [z, c, s] = [z, c, s].map(u8::from);
    let v = match v {
        Overflow::Clear => '0',
        Overflow::Set => '1',
        Overflow::Unsettled => '-',
    };
    format!("z {z} c {c} s {s} v {v}")
}

/// Numbers with spaces between them.
pub fn numbers<T: Display>(numbers: &[T]) -> String {
    numbers.iter().map(T::to_string).collect::<Vec<_>>().join(" ")
}
