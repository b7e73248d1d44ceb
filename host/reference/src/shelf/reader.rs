//! Numbers read one behind another, each for its form and then for its field.

use std::ops::RangeInclusive;

/// Number and byte of what is wrong.
pub type Refused = (u8, usize);

/// A file, and the byte up to which it is read.
pub struct Reader<'a> {
    file: &'a [u8],
    at: usize,
}

impl Reader<'_> {
    /// A file of which nothing is read.
    pub fn new(file: &[u8]) -> Reader<'_> {
        Reader { file, at: 0 }
    }

    /// The next number, if its type has it.
    pub fn number<T: TryFrom<usize>>(&mut self) -> Result<T, Refused> {
        let begin = self.at;
        T::try_from(self.any()?).map_err(|_| (31, begin))
    }

    /// The next number, if it is in a range.
    pub fn number_in(&mut self, range: RangeInclusive<usize>) -> Result<usize, Refused> {
        let begin = self.at;
        Some(self.any()?).filter(|number| range.contains(number)).ok_or((31, begin))
    }

    /// The next number in its shortest form. One too large for the type is taken as the largest,
    /// which no field has either.
    fn any(&mut self) -> Result<usize, Refused> {
        let rest = &self.file[self.at..];
        let last = rest.iter().position(|byte| *byte < 128).ok_or((30, self.at))?;
        if last > 0 && rest[last] == 0 {
            return Err((30, self.at));
        }
        self.at += last + 1;
        let add = |number: usize, group: &u8| {
            number.saturating_mul(128).saturating_add((group % 128).into())
        };
        Ok(rest[..=last].iter().rev().fold(0, add))
    }

    /// Success if nothing is left to read.
    pub fn end(&self) -> Result<(), Refused> {
        if self.at < self.file.len() {
            return Err((31, self.at));
        }
        Ok(())
    }
}
