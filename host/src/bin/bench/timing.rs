//! Times: what a call takes, and the middle of many repetitions.

use std::array;
use std::hint::black_box;
use std::time::Instant;

/// The repetitions of each measurement, of which the middle one counts.
pub const REPETITIONS: usize = 15;

/// The middle values of things that each repetition measures in turn.
pub fn medians<const N: usize>(mut repetition: impl FnMut() -> [f64; N]) -> [f64; N] {
    let rounds: Vec<[f64; N]> = (0..REPETITIONS).map(|_| repetition()).collect();
    array::from_fn(|which| median(rounds.iter().map(|values| values[which]).collect()))
}

/// What a call yields, and the seconds that it takes.
pub fn timed<T>(call: impl FnOnce() -> T) -> (T, f64) {
    let clock = Instant::now();
    let answer = black_box(call());
    (answer, clock.elapsed().as_secs_f64())
}

/// The middle of these values.
fn median(mut values: Vec<f64>) -> f64 {
    values.sort_by(f64::total_cmp);
    values[values.len() / 2]
}
