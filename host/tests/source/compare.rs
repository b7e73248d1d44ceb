//! A text given to both assemblers.

use crate::banks::Banks;
use crate::sides::{Answer, ASSEMBLERS};
use cesca::BANK;

/// The most bytes of a text that a message shows.
const SHOWN: usize = 2_000;

/// What both assemblers answer on a text; both leave the same banks, which a refusal doesn't touch.
pub fn agreed(text: &[u8]) -> Answer {
    let before = Banks::old(BANK, BANK);
    let [(library, filled), (reference, wanted)] =
        ASSEMBLERS.map(|(_, assembler)| before.lent(assembler, text));
    assert_eq!(library, reference, "library and reference on {}", shown(text));
    let wanted = if library.is_ok() { wanted } else { before };
    expect(&filled, &wanted, text);
    library
}

/// Checks that both assemblers answer this on a text.
pub fn check(text: &[u8], wanted: Answer) {
    assert_eq!(agreed(text), wanted, "{}", shown(text));
}

/// Checks that both assemblers fill the banks with these words.
pub fn check_words(text: &[u8], words: &[[u8; 2]]) {
    for (name, assembler) in ASSEMBLERS {
        let (answer, filled) = Banks::old(BANK, BANK).lent(assembler, text);
        assert_eq!(answer, Ok(words.len()), "{name} on {}", shown(text));
        expect(&filled, &Banks::filled(words), text);
    }
}

/// Checks that the banks, guards included, are as wanted after this text.
fn expect(found: &Banks, wanted: &Banks, text: &[u8]) {
    if found != wanted {
        panic!("{}\nleaves {}", shown(text), found.differences(wanted).join("; "));
    }
}

/// A text for a message.
fn shown(text: &[u8]) -> String {
    let start = text[..text.len().min(SHOWN)].escape_ascii();
    format!("{} bytes: \"{start}\"", text.len())
}
