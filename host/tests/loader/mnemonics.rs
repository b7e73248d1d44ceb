//! Refusals name an instruction as the CESCA document does.

use cesca::Listing;
use reference::{Instruction, Listing as Text};

#[test]
fn every_word_that_would_go_on_past_255_is_named() {
    let mut named = 0;
    for word in (0..=u16::MAX).map(u16::to_be_bytes) {
        // V marked and a byte on the stack, so that nothing else is wrong before that.
        let file = Text::a().with_sheet(255, 0xC001).with_word(255, word).file();
        let Err(refusal) = Listing::from_bytes(&file).and_then(|listing| listing.admit()) else {
            continue;
        };
        if refusal.number() == 13 {
            let text = Instruction::decode(word).to_string();
            let name = text.split(' ').next().expect("a mnemonic");
            let start = format!("{name} would go on past address 255");
            assert!(refusal.words().starts_with(&start), "{refusal}");
            named += 1;
        }
    }
    // All but jmp, jmp Ra, ret and hlt, each with four opcodes.
    assert_eq!(named, (256 - 16) * 256);
}
