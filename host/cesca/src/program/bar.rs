//! Depths as bars.

/// The most characters of a bar.
const WIDTH: usize = 32;

/// How many bytes a character stands for.
pub struct Scale {
    bytes: u8,
    deepest: u8,
}

impl Scale {
    /// The finest scale on which this depth has a bar that isn't too long.
    pub fn of(deepest: u8) -> Scale {
        let bytes = usize::from(deepest).div_ceil(WIDTH).max(1);
        Scale { bytes: bytes as u8, deepest }
    }

    /// The bytes that a character stands for.
    pub fn bytes(&self) -> u8 {
        self.bytes
    }

    /// The length of the longest bar.
    pub fn width(&self) -> usize {
        self.bar(self.deepest).len()
    }

    /// The bar of a depth; any byte begun has its character.
    pub fn bar(&self, depth: u8) -> String {
        "#".repeat(depth.div_ceil(self.bytes).into())
    }
}

#[cfg(test)]
mod tests {
    use super::*;

    #[test]
    fn a_character_a_byte() {
        for deepest in 0..=32 {
            let scale = Scale::of(deepest);
            assert_eq!((scale.bytes(), scale.width()), (1, deepest.into()));
            for depth in 0..=deepest {
                assert_eq!(scale.bar(depth).len(), depth.into());
            }
        }
        assert_eq!([0, 1, 3].map(|depth| Scale::of(3).bar(depth)), ["", "#", "###"]);
    }

    #[test]
    fn deep_stacks_are_scaled() {
        let scale = Scale::of(33);
        assert_eq!((scale.bytes(), scale.width()), (2, 17));
        assert_eq!([0, 1, 2, 3, 33].map(|depth| scale.bar(depth).len()), [0, 1, 1, 2, 17]);
        let scale = Scale::of(255);
        assert_eq!((scale.bytes(), scale.width()), (8, 32));
        assert_eq!([0, 1, 8, 9, 255].map(|depth| scale.bar(depth).len()), [0, 1, 1, 2, 32]);
        assert!((0..=255).all(|deepest| Scale::of(deepest).width() <= WIDTH));
    }
}
