//! The instructions that a sheet allows at an address.

use crate::random::Random;
use cesca::{Class, Effect, Facts};
use reference::{Instruction, SheetWord};
use std::sync::LazyLock;

/// The class of each opcode, and whether it tests V.
static OPCODES: LazyLock<Vec<(u8, Class, bool)>> = LazyLock::new(|| {
    let facts = (0..=255).map(|opcode| (opcode, Instruction::decode([opcode, 0]).facts()));
    facts.map(|(opcode, Facts { class, tests, .. })| (opcode, class, tests)).collect()
});

/// The words that only go on to the next one, and what they do to V.
static PLAIN: LazyLock<Vec<([u8; 2], Effect)>> = LazyLock::new(|| {
    let words = (0..=u16::MAX).map(u16::to_be_bytes);
    let facts = words.map(|word| (word, Instruction::decode(word).facts()));
    let plain = facts.filter(|(_, facts)| facts.class == Class::Next);
    plain.map(|(word, facts)| (word, facts.overflow)).collect()
});

/// The classes, jumps and halts apart, that may stand at a word before this next one.
pub fn classes(word: SheetWord, next: Option<SheetWord>, callable: bool) -> Vec<Class> {
    let (depth, settled) = (i16::from(word.depth()), word.settled());
    let after = |rise| next.is_some_and(|next| i16::from(next.depth()) == depth + rise);
    let keeps = next.is_some_and(|next| settled || !next.settled());
    let fresh = next.is_some_and(|next| !next.settled());
    let rules = [
        (Class::Next, after(0)),
        (Class::Branch, after(0) && keeps),
        (Class::Call, after(0) && fresh && callable),
        (Class::Return, word.routine() > 0 && depth == 0),
        (Class::Push, after(1) && keeps),
        (Class::Pop, after(-1) && keeps),
        (Class::Swap, after(0) && keeps && depth > 0),
    ];
    rules.into_iter().filter(|(_, allowed)| *allowed).map(|(class, _)| class).collect()
}

/// A plain word that may stand between these two.
pub fn plain(random: &mut Random, word: SheetWord, next: SheetWord) -> [u8; 2] {
    let allowed = |effect| match effect {
        Effect::Settles => true,
        Effect::Leaves => word.settled() || !next.settled(),
        Effect::Unsettles => !next.settled(),
    };
    loop {
        let (word, effect) = random.pick(&PLAIN);
        if allowed(effect) {
            return word;
        }
    }
}

/// An opcode of this class, one that tests V only where it is settled.
pub fn opcode(random: &mut Random, class: Class, settled: bool) -> u8 {
    let fits = |(_, own, tests): &&(u8, Class, bool)| *own == class && (settled || !tests);
    let opcodes: Vec<u8> = OPCODES.iter().filter(fits).map(|(opcode, ..)| *opcode).collect();
    random.pick(&opcodes)
}
