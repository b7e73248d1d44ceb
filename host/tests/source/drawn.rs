//! Texts drawn at random, good and damaged: both assemblers agree on answer and banks.

use crate::compare::{agreed, check};
use crate::damage::damaged;
use crate::random::each_case;
use crate::texts::Text;
use cesca::BANK;
use std::collections::BTreeMap;

/// The good texts.
const GOOD: u64 = 40_000;

/// The damaged ones.
const DAMAGED: u64 = 80_000;

#[test]
fn good_texts_are_read() {
    let mut full = 0;
    each_case(GOOD, |random| {
        let text = Text::drawn(random);
        let wanted = if text.words > BANK { Err((26, 0)) } else { Ok(text.words) };
        check(text.typed(random).as_bytes(), wanted);
        full += u32::from(wanted == Ok(BANK));
    });
    assert!(full > 100, "{full} texts fill the banks");
}

#[test]
fn damaged_texts_are_answered_alike() {
    let mut answers: BTreeMap<u8, u64> = BTreeMap::new();
    each_case(DAMAGED, |random| {
        let text = damaged(Text::drawn(random), random);
        let number = agreed(&text).map_or_else(|(number, _)| number, |_| 0);
        *answers.entry(number).or_default() += 1;
    });
    assert_eq!(answers.keys().copied().collect::<Vec<u8>>(), [0, 24, 25, 26]);
    assert!(answers.values().all(|count| *count > 300), "{answers:?}");
}
