//! The registers of a run.

/// The place of a result that goes nowhere.
pub const NONE: u8 = 4;

/// R0 to R3 and further places: as many as three bits number, so that none needs a check.
pub struct Registers([u8; 8]);

impl Registers {
    /// The registers with these bytes.
    pub fn new([r0, r1, r2, r3]: [u8; 4]) -> Registers {
        Registers([r0, r1, r2, r3, 0, 0, 0, 0])
    }

    /// The bytes of R0 to R3.
    pub fn bytes(&self) -> [u8; 4] {
        let [r0, r1, r2, r3, ..] = self.0;
        [r0, r1, r2, r3]
    }

    /// The byte at a place.
    #[inline]
    pub fn get(&self, place: u8) -> u8 {
        self.0[usize::from(place & 7)]
    }

    /// Puts a byte at a place.
    #[inline]
    pub fn put(&mut self, place: u8, byte: u8) {
        self.0[usize::from(place & 7)] = byte;
    }
}
