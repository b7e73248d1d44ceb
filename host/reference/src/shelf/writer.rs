//! Numbers written one behind another, the lowest group first.

/// A buffer with what is written at its beginning.
pub struct Writer<'a> {
    out: &'a mut [u8],
    length: usize,
}

impl Writer<'_> {
    /// A buffer to which nothing is written.
    pub fn new(out: &mut [u8]) -> Writer<'_> {
        Writer { out, length: 0 }
    }

    /// Writes a number in its shortest form.
    pub fn put(&mut self, mut number: usize) {
        while number >= 128 {
            self.put_byte(128 + (number % 128) as u8);
            number /= 128;
        }
        self.put_byte(number as u8);
    }

    /// Writes a byte.
    fn put_byte(&mut self, byte: u8) {
        self.out[self.length] = byte;
        self.length += 1;
    }

    /// The bytes written.
    pub fn length(&self) -> usize {
        self.length
    }
}
