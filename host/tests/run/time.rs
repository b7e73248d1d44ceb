//! Running times beside those of the worked cases: examples, the edges, and the nearest tenth in
//! exact numbers.

use crate::random::each_case;
use cesca::{running_time, Refusal};

/// Clocks at and near the edges that are allowed.
const CLOCKS: [u32; 16] =
    [1, 2, 3, 4, 5, 9, 10, 11, 19, 20, 21, 100, 480, 999_998, 999_999, 1_000_000];

/// Checks that the tenths told are the nearest, of two the higher.
fn check(cycles: u32, clock: u32) {
    let tenths = running_time(cycles, clock).expect("nothing to refuse");
    // Cycles / clock is in [tenths - 1/2, tenths + 1/2) tenths: all of it times 20 clocks.
    let [cycles, clock, tenths] = [cycles, clock, tenths].map(i128::from);
    let nearest = (2 * tenths - 1) * clock..(2 * tenths + 1) * clock;
    assert!(nearest.contains(&(20 * cycles)), "{cycles} at {clock} Hz: {tenths} tenths");
}

#[test]
fn examples() {
    assert_eq!(running_time(14, 100), Ok(1));
    assert_eq!(running_time(15, 100), Ok(2));
    assert_eq!(running_time(0, 1), Ok(0));
    assert_eq!(running_time(31, 1), Ok(310));
    assert_eq!(running_time(8_000_000, 1_000_000), Ok(80));
    assert_eq!(running_time(49_999, 1_000_000), Ok(0));
    assert_eq!(running_time(50_000, 1_000_000), Ok(1));
    assert_eq!(running_time(1, 20), Ok(1));
    assert_eq!(running_time(1, 21), Ok(0));
}

#[test]
fn a_clock_is_refused_before_cycles() {
    for clock in [0, 1_000_001, 1_000_002, 1 << 31, u32::MAX] {
        for cycles in [0, 1, 8_000_000, 8_000_001, u32::MAX] {
            assert_eq!(
                running_time(cycles, clock),
                Err(Refusal::of_call(20)),
                "{cycles} at {clock} Hz"
            );
        }
    }
    for cycles in [8_000_001, 8_000_002, 1 << 31, u32::MAX] {
        for clock in CLOCKS {
            assert_eq!(
                running_time(cycles, clock),
                Err(Refusal::of_call(21)),
                "{cycles} at {clock} Hz"
            );
        }
    }
}

#[test]
fn all_small_times() {
    for clock in 1..=700 {
        for cycles in 0..=1_500 {
            check(cycles, clock);
        }
    }
}

#[test]
fn times_at_the_edges() {
    for clock in CLOCKS {
        for near in [0, 100, 4_000_000, 7_999_900] {
            for cycles in near..=near + 100 {
                check(cycles, clock);
            }
        }
    }
}

#[test]
fn times_on_both_sides_of_a_half() {
    each_case(200_000, |random| {
        let clock = 1 + random.below(1_000_000);
        let most = 8_000_000 * 10 / clock;
        // The cycles of so many tenths and a half, cut to a whole number.
        let tenths = u64::from(random.below(most + 1));
        let half = (2 * tenths + 1) * u64::from(clock) / 20;
        for cycles in half.saturating_sub(2)..=half + 2 {
            check(cycles.min(8_000_000) as u32, clock);
        }
        check(random.below(8_000_001), clock);
    });
}
