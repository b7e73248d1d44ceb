//! Numbers that look random and are the same each time.

use std::thread;

/// What every case's numbers are made from.
const SEED: u64 = 0x0CE5_CA00_2020_0218;

/// A xorshift generator that names its case if the case fails.
pub struct Random {
    case: u64,
    state: u64,
}

/// Calls `check` with the generator of each case.
pub fn each_case(cases: u64, mut check: impl FnMut(&mut Random)) {
    for case in 0..cases {
        check(&mut Random::of_case(case));
    }
}

impl Random {
    /// The generator of a case.
    fn of_case(case: u64) -> Random {
        // Odd, since a xorshift would stay at 0.
        let state = (SEED ^ case.wrapping_mul(0x9E37_79B9_7F4A_7C15)) | 1;
        let mut random = Random { case, state };
        random.number();
        random
    }

    /// The next number.
    pub fn number(&mut self) -> u64 {
        self.state ^= self.state << 13;
        self.state ^= self.state >> 7;
        self.state ^= self.state << 17;
        self.state.wrapping_mul(0x2545_F491_4F6C_DD1D)
    }

    /// A number below a bound.
    pub fn below(&mut self, bound: u32) -> u32 {
        let high = self.number() >> 32;
        ((high * u64::from(bound)) >> 32) as u32
    }

    /// A byte.
    pub fn byte(&mut self) -> u8 {
        self.below(256) as u8
    }

    /// So many bytes.
    pub fn bytes(&mut self, length: usize) -> Vec<u8> {
        let mut bytes = vec![0; length];
        for chunk in bytes.chunks_mut(8) {
            let number = self.number().to_le_bytes();
            chunk.copy_from_slice(&number[..chunk.len()]);
        }
        bytes
    }

    /// Whether this is the one time in so many.
    pub fn once_in(&mut self, times: u32) -> bool {
        self.below(times) == 0
    }

    /// One of these.
    pub fn pick<T: Copy>(&mut self, choices: &[T]) -> T {
        choices[self.below(choices.len() as u32) as usize]
    }
}

impl Drop for Random {
    fn drop(&mut self) {
        if thread::panicking() {
            eprintln!("seed {SEED:#018X}, case {}", self.case);
        }
    }
}
