//! The stack sheet's words and the routines.

/// The bit of a described address.
const DESCRIBED: u32 = 15;

/// The bit of a settled V.
const SETTLED: u32 = 14;

/// The bits of the high byte that are the routine's number.
const ROUTINE: u8 = 63;

/// What the sheet says of an address.
#[derive(Clone, Copy, Debug, Default, PartialEq, Eq)]
pub struct SheetWord {
    /// The address is described.
    pub described: bool,
    /// V is settled here.
    pub settled: bool,
    /// The routine's number, 0 to 63.
    pub routine: u8,
    /// The bytes above the routine's return address, for routine 0 all bytes.
    pub depth: u8,
}

impl From<u16> for SheetWord {
    fn from(word: u16) -> SheetWord {
        let [high, depth] = word.to_be_bytes();
        SheetWord {
            described: word >> DESCRIBED & 1 == 1,
            settled: word >> SETTLED & 1 == 1,
            routine: high & ROUTINE,
            depth,
        }
    }
}

/// The word as the sheet has it; a routine number over 63 loses its high bits.
impl From<SheetWord> for u16 {
    fn from(word: SheetWord) -> u16 {
        let SheetWord { described, settled, routine, depth } = word;
        let marks = u16::from(described) << DESCRIBED | u16::from(settled) << SETTLED;
        marks | u16::from_be_bytes([routine & ROUTINE, depth])
    }
}

/// A routine of the list.
#[derive(Clone, Copy, Debug, PartialEq, Eq)]
pub struct Routine {
    /// The address where it begins.
    pub entry: u8,
    /// The most bytes that it and its callees put above its return address, as the list states.
    pub need: u8,
}

#[cfg(test)]
mod tests {
    use super::*;

    #[test]
    fn every_word_comes_back() {
        for word in 0..=u16::MAX {
            assert_eq!(u16::from(SheetWord::from(word)), word);
        }
    }

    #[test]
    fn the_bits_of_a_word() {
        let word = SheetWord { described: true, settled: true, routine: 1, depth: 2 };
        assert_eq!(SheetWord::from(0xC102), word);
        let word = SheetWord { described: true, settled: false, routine: 63, depth: 255 };
        assert_eq!(SheetWord::from(0xBFFF), word);
        assert_eq!(u16::from(SheetWord { routine: 64, ..word }), 0x80FF);
        assert_eq!(SheetWord::from(0), SheetWord::default());
    }
}
