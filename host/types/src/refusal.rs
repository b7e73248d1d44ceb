//! Why a listing or a call is refused.

use std::borrow::Cow;
use std::error::Error;
use std::fmt::{self, Display, Formatter};

/// What each number stands for, from 1.
const WORDS: [&str; 32] = [
    "the opcodes or the arguments are not 256 bytes",
    "the sheet is not 512 bytes",
    "the routine list has an odd number of bytes, none, or more than 128",
    "the address is not described, yet its sheet word is not 0",
    "the address names a routine that the list does not have",
    "routine 0 does not begin at address 0",
    "the routine's first address is not described, belongs to another routine, \
     is at a depth above 0, or marks V",
    "the depth is over the routine's need",
    "it is jmp Ra, which could go anywhere",
    "it tests V where the sheet does not mark V as settled",
    "it is pop or swap with nothing of the routine's own on the stack",
    "it is ret in routine 0, or with bytes of the routine still on the stack",
    "it is address 255 and would go on to the next word",
    "it calls an address where no routine begins",
    "it calls a routine that needs more than is left of its own routine's need",
    "it leads to an address that is not described, is in another routine, \
     has another depth, or marks V where V may be unsettled",
    "a bank is not 256 bytes",
    "the key position is past the end of the keys",
    "the budget is over 1,000,000 steps",
    "the clock is 0 or over 1,000,000 Hz",
    "more than 8,000,000 cycles are to be timed",
    "a register number is over 3",
    "the function number is over 15",
    "the line is no instruction or macro",
    "a label is missing or given twice",
    "more than 256 words result",
    "no sheet and list at all would be admitted with these banks",
    "the seats are 0 or over 8",
    "the slice is 0 or over 1,000 steps",
    "a number of the file is cut off or not in its shortest form",
    "a number of the file is not in its field, n is not the least, or bytes follow",
    "the buffer is under 2,051 bytes",
];

/// Why a listing or a call is refused, shown as `15 at 1: ..` or, for a call, as `19: ..`.
///
/// `==` compares the words too, so compare [`number`](Refusal::number) and
/// [`place`](Refusal::place) where what is wrong matters and not how it is put.
#[derive(Clone, Debug, PartialEq, Eq)]
pub struct Refusal {
    number: u8,
    place: Option<u8>,
    words: Cow<'static, str>,
}

impl Refusal {
    /// The refusal of a listing, with what its number says in general.
    pub fn of_listing(number: u8, place: u8) -> Refusal {
        Refusal { number, place: Some(place), words: general(number) }
    }

    /// The refusal of any other call, with what its number says in general.
    pub fn of_call(number: u8) -> Refusal {
        Refusal { number, place: None, words: general(number) }
    }

    /// The ground's number: 1 to 16 for a listing, 1 to 3 or 17 to 32 for a call.
    pub fn number(&self) -> u8 {
        self.number
    }

    /// The routine that breaks rule 7, the address that breaks another, 0 for 1, 2, 3 and 6; none
    /// for a call.
    pub fn place(&self) -> Option<u8> {
        self.place
    }

    /// What is wrong.
    pub fn words(&self) -> &str {
        &self.words
    }

    /// The number that admission hands back: the ground's, and 256 times its place.
    pub fn answer(&self) -> u32 {
        u32::from(self.number) + 256 * u32::from(self.place.unwrap_or(0))
    }

    /// The same with other words for what is wrong.
    pub fn with_words(self, words: String) -> Refusal {
        Refusal { words: words.into(), ..self }
    }
}

/// What a number says in general.
fn general(number: u8) -> Cow<'static, str> {
    let words = WORDS.get(usize::from(number).wrapping_sub(1)).copied();
    words.unwrap_or("no ground has this number").into()
}

impl Display for Refusal {
    fn fmt(&self, out: &mut Formatter<'_>) -> fmt::Result {
        let Refusal { number, place, words } = self;
        match place {
            Some(place) => write!(out, "{number} at {place}: {words}"),
            None => write!(out, "{number}: {words}"),
        }
    }
}

impl Error for Refusal {}

#[cfg(test)]
mod tests {
    use super::*;

    #[test]
    fn a_listings_refusal_shows_its_place() {
        let refusal = Refusal::of_listing(15, 1);
        assert_eq!((refusal.number(), refusal.place(), refusal.answer()), (15, Some(1), 271));
        let general = "it calls a routine that needs more than is left of its own routine's need";
        assert_eq!(refusal.to_string(), format!("15 at 1: {general}"));
        let told = refusal.with_words("the call needs 2 bytes where routine 0 has 1 left".into());
        let shown = "15 at 1: the call needs 2 bytes where routine 0 has 1 left";
        assert_eq!(told.to_string(), shown);
        assert_eq!((told.number(), told.place()), (15, Some(1)));
        assert_ne!(told, Refusal::of_listing(15, 1));
        assert_eq!(Refusal::of_listing(3, 0).place(), Some(0));
    }

    #[test]
    fn a_calls_refusal_shows_none() {
        let refusal = Refusal::of_call(19);
        assert_eq!((refusal.number(), refusal.place(), refusal.answer()), (19, None, 19));
        assert_eq!(refusal.to_string(), "19: the budget is over 1,000,000 steps");
        let bank = "1: the opcodes or the arguments are not 256 bytes";
        assert_eq!(Refusal::of_call(1).to_string(), bank);
    }

    #[test]
    fn each_number_has_words_of_its_own() {
        for number in 1..=32 {
            let words = Refusal::of_call(number);
            let words = words.words();
            assert_eq!(WORDS.iter().filter(|other| **other == words).count(), 1, "{number}");
            assert!(!words.contains('\n') && !words.ends_with('.'), "{words}");
        }
        for number in [0, 33, 255] {
            assert_eq!(Refusal::of_call(number).words(), "no ground has this number");
        }
    }

    #[test]
    fn a_refusal_is_an_error() {
        let error: Box<dyn Error> = Refusal::of_call(20).into();
        assert_eq!(error.to_string(), "20: the clock is 0 or over 1,000,000 Hz");
    }
}
