//! The stack sheet's words and the routine list.

/// The sheet's word for an address.
#[derive(Clone, Copy, Debug, Default, PartialEq, Eq)]
pub struct SheetWord(pub u16);

impl SheetWord {
    /// The word of a described address.
    pub fn new(routine: u8, depth: u8, settled: bool) -> SheetWord {
        let bits = u16::from_le_bytes([depth, routine % 64]);
        SheetWord(1 << 15 | u16::from(settled) << 14 | bits)
    }

    /// Bit 15: the address is described.
    pub fn described(self) -> bool {
        self.0 >> 15 & 1 == 1
    }

    /// Bit 14: V is settled here.
    pub fn settled(self) -> bool {
        self.0 >> 14 & 1 == 1
    }

    /// Bits 13 to 8: the routine's number.
    pub fn routine(self) -> u8 {
        (self.0 >> 8 & 63) as u8
    }

    /// Bits 7 to 0: the bytes above the routine's return address.
    pub fn depth(self) -> u8 {
        (self.0 & 255) as u8
    }
}

/// A routine of the list.
#[derive(Clone, Copy, Debug, PartialEq, Eq)]
pub struct Routine {
    /// The address where it begins.
    pub entry: u8,
    /// The most bytes that it and its callees put above its return address.
    pub need: u8,
}

/// The words of a sheet, low byte first.
pub(super) fn words(sheet: &[u8]) -> Vec<SheetWord> {
    let words = sheet.chunks_exact(2).map(|pair| u16::from_le_bytes([pair[0], pair[1]]));
    words.map(SheetWord).collect()
}

/// The routines of a list, entry first.
pub(super) fn routines(list: &[u8]) -> Vec<Routine> {
    list.chunks_exact(2).map(|pair| Routine { entry: pair[0], need: pair[1] }).collect()
}
