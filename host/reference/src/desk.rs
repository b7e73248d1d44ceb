//! The desk program: what it prints on an input.

use super::{run, Listing};
use cesca_types::{Lent, Report, State, Stop, BANK, MOST_READ};

/// The words of the desk's roll.
const ROLL: usize = 1_000;

/// The steps that the desk gives a listing.
const BUDGET: u32 = 1_000;

/// What the desk prints on this input.
pub fn desk(input: &[u8]) -> String {
    let listing = Listing::cut(&input[..input.len().min(MOST_READ)]);
    if let Err(refusal) = listing.admit() {
        let place = refusal.place().expect("a listing's refusal has a place");
        return format!("refused {} at {place}\n", refusal.number());
    }
    let need = listing.list[1];
    let Report { stop, steps, cycles, state, .. } = run_alone(&listing);
    let word = match stop {
        Stop::Halted => "halted",
        Stop::Spent => "spent",
        Stop::Unsettled | Stop::Full => unreachable!("no stop of an admitted listing here"),
    };
    let State { out, sp, .. } = state;
    format!("admitted need {need}\n{word} steps {steps} cycles {cycles} out {out} sp {sp}\n")
}

/// The report of a run from the start state, without keys and with zero data and stack.
fn run_alone(listing: &Listing) -> Report {
    let lent = Lent {
        opcodes: &listing.opcodes,
        arguments: &listing.arguments,
        keys: &[],
        ram: &mut [0; BANK],
        stack: &mut [0; BANK],
        roll: &mut [0; ROLL],
    };
    run(lent, BUDGET, State::start()).expect("nothing to refuse")
}

#[cfg(test)]
mod tests {
    use super::*;

    #[test]
    fn listing_a() {
        let printed = "admitted need 2\nhalted steps 8 cycles 31 out 6 sp 255\n";
        assert_eq!(desk(&Listing::a().file()), printed);
    }

    #[test]
    fn bytes_past_the_last_are_not_read() {
        // The list has 129 bytes then, however long the input is.
        for length in [1_153, 1_154, 5_000] {
            let mut input = Listing::a().file();
            input.resize(length, 0);
            assert_eq!(desk(&input), "refused 3 at 0\n");
        }
    }
}
