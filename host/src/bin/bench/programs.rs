//! Programs to run: some that go on for ever, each heavy in another way, and the stored listings.

mod texts;

use crate::stored;
use reference::Listing;
pub use texts::{ALU, MIX};
use texts::{BRANCHES, CALLS, MEMORY};

/// The programs that go on for ever, by name.
pub fn endless() -> Vec<(String, Listing)> {
    let texts =
        [("mix", MIX), ("alu", ALU), ("memory", MEMORY), ("calls", CALLS), ("branches", BRANCHES)];
    texts.map(|(name, text)| (name.to_string(), Listing::read(text))).into()
}

/// The stored listings that are admitted, by name.
pub fn stored() -> Vec<(String, Listing)> {
    let directory = stored::path("../listings");
    let names = stored::names(&directory, ".bin").into_iter();
    let listings = names.map(|name| {
        let file = directory.join(&name).with_extension("bin");
        (name, Listing::cut(&stored::read(&file)))
    });
    listings.filter(|(_, listing)| listing.admit().is_ok()).collect()
}

#[cfg(test)]
mod tests {
    use super::*;
    use crate::machines::library;
    use cesca::{Class, Lent, State, Stop, BANK, MOST_STEPS};
    use reference::{run_watched, Form};
    use std::collections::HashSet;

    #[test]
    fn the_endless_ones_spend_their_budget_and_the_stored_ones_halt() {
        let stop = |program: &Listing| library(program).run(MOST_STEPS).stop;
        assert!(endless().iter().all(|(_, program)| stop(program) == Stop::Spent));
        assert!(stored().iter().all(|(_, program)| stop(program) == Stop::Halted));
        assert!(stored().len() >= 7);
    }

    #[test]
    fn every_branch_is_taken_and_untaken() {
        let Listing { opcodes, arguments, .. } = &Listing::read(BRANCHES);
        let (ram, stack) = (&mut [0; BANK], &mut [0; BANK]);
        let lent = Lent { opcodes, arguments, keys: &[], ram, stack, roll: &mut [] };
        let mut met = HashSet::new();
        let report = run_watched(lent, 10_000, State::start(), |step| {
            let taken = step.after.pc != step.before.pc + 1;
            met.insert((step.instruction.form.row(), taken));
        });
        assert_eq!(report.map(|report| report.stop), Ok(Stop::Spent));
        let branches = Form::ALL.into_iter().filter(|form| form.class() == Class::Branch);
        for form in branches {
            let both = [true, false].map(|taken| met.contains(&(form.row(), taken)));
            assert_eq!(both, [true, true], "{}", form.mnemonic());
        }
    }
}
