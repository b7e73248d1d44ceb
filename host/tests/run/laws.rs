//! Laws of runs that need no reference.

use crate::case::Case;
use crate::memory::{Guarded, Memory};
use crate::random::each_case;
use cesca::{run, Report, State};

/// A word that no transfer makes.
const BLANK: u16 = 999;

/// The report of a run with a blank roll of as many words as the budget, never full.
fn run_blank(memory: &mut Memory, budget: u32, start: State) -> Report {
    memory.roll = Guarded::new(vec![BLANK; budget as usize]);
    run(memory.lend(), budget, start).expect("nothing to refuse")
}

/// The words written to the roll; the others must be blank still.
fn written(memory: &Memory, report: Report) -> Vec<u16> {
    let (words, rest) = memory.roll.inner().split_at(report.words);
    assert!(rest.iter().all(|word| *word == BLANK), "words past those counted");
    words.to_vec()
}

#[test]
fn a_run_is_its_first_steps_and_then_the_others() {
    each_case(50_000, |random| {
        let Case { memory, start, .. } = Case::good(random);
        let most = random.pick(&[4, 40, 400]);
        // Without a step to make, the second run is spent at once.
        let (first, second) = (random.below(most), 1 + random.below(most));

        let mut whole_memory = memory.clone();
        let whole = run_blank(&mut whole_memory, first + second, start);

        let mut parts_memory = memory;
        let head = run_blank(&mut parts_memory, first, start);
        let mut roll = written(&parts_memory, head);
        let tail = run_blank(&mut parts_memory, second, head.state);
        roll.extend(written(&parts_memory, tail));

        let joined = Report {
            steps: head.steps + tail.steps,
            cycles: head.cycles + tail.cycles,
            words: head.words + tail.words,
            ..tail
        };
        assert_eq!(joined, whole, "{first} steps and {second} from {start:?}");
        assert_eq!(roll, written(&whole_memory, whole));
        assert!(parts_memory.ram == whole_memory.ram, "ram");
        assert!(parts_memory.stack == whole_memory.stack, "stack");
    });
}
