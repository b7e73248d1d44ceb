//! Library and reference on one call.

use crate::buffers::Buffers;
use crate::runners::{Answer, RUNNERS};
use cesca::State;

/// What both busy runs answer and leave, once it is found to be alike; where they refuse, each must
/// leave all that it was lent as it was.
pub fn compared(before: &Buffers, budget: u32, start: State) -> (Answer, Buffers) {
    let [(library, found), (reference, wanted)] =
        RUNNERS.map(|(_, runner)| before.lent(runner, budget, start));
    let inputs = || format!("budget {budget} from {start:?} with {before:?}");
    assert_eq!(library, reference, "{}", inputs());
    if library.is_err() {
        for ((name, _), left) in RUNNERS.iter().zip([&found, &wanted]) {
            assert!(left == before, "{name} wrote: {} {}", left.differences(before), inputs());
        }
    }
    assert!(found == wanted, "{} {}", found.differences(&wanted), inputs());
    (library, found)
}
