//! Files of all kinds, 200,000 and more: both openers agree on answer and buffers, and a file that
//! is opened is the one that both writers write for its listing.

use crate::tally::Tally;
use crate::{damage, ends, long, scattered, shapes};

/// The files that are opened at least, of all kinds together.
const LEAST: u64 = 200_000;

/// A kind of files, and how often each outcome must be met at least: opened, 30, 31 at byte 0, 31
/// further on.
type Kind = (&'static str, fn(&mut Tally), [u64; 4]);

/// The kinds.
const KINDS: [Kind; 10] = [
    ("every n", shapes::every_n, [16_448, 0, 0, 0]),
    ("stored listings", shapes::of_listings, [18, 0, 0, 0]),
    ("one byte", damage::of_one_byte, [100_000, 20_000, 2_000, 150_000]),
    ("cut", ends::cut, [0, 4_000, 0, 0]),
    ("continued", ends::continued, [0, 0, 0, 5_000]),
    ("blank words", ends::blank, [0, 1_000, 3_500, 0]),
    ("equal groups", long::of_equal_groups, [200, 1_800, 200, 2_400]),
    ("random groups", long::of_random_groups, [1_000, 3_000, 2_000, 20_000]),
    ("random bytes", scattered::random_bytes, [100, 7_000, 3_000, 18_000]),
    ("several bytes", scattered::changed, [3_000, 5_000, 150, 20_000]),
];

#[test]
fn files_of_all_kinds_are_opened_alike() {
    let mut files = 0;
    for (name, open_all, least) in KINDS {
        let mut tally = Tally::default();
        open_all(&mut tally);
        let met = tally.outcomes();
        assert!(met.iter().zip(least).all(|(met, least)| *met >= least), "{name}: {tally:?}");
        files += tally.files;
    }
    assert!(files >= LEAST, "{files} files");
}
