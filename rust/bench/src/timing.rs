//! Two calls, timed one after the other in many rounds.

use std::time::{Duration, Instant};

/// A call is repeated until it takes this long, so that reading the clock costs nothing beside it.
const SHORTEST: Duration = Duration::from_micros(100);

/// The medians over all rounds.
#[derive(Clone, Copy, Debug)]
pub struct Timing {
    /// The time of the proved call, in nanoseconds.
    pub proved: f64,
    /// The time of the Rust drawing's call, in nanoseconds.
    pub rust: f64,
    /// Proved by Rust, as seen in one round: what slows the machine down for a while slows both.
    pub ratio: f64,
}

/// Times both calls, in so many rounds.
pub fn interleaved(rounds: usize, proved: impl FnMut(), rust: impl FnMut()) -> Timing {
    let seen = in_turns(rounds, proved, rust);
    Timing {
        proved: median(seen.iter().map(|times| times[0])),
        rust: median(seen.iter().map(|times| times[1])),
        ratio: ratio(&seen),
    }
}

/// The times of two calls in each round, in nanoseconds.
pub fn in_turns(rounds: usize, mut first: impl FnMut(), mut second: impl FnMut()) -> Vec<[f64; 2]> {
    let repeats = [repeats(&mut first), repeats(&mut second)];
    (0..rounds).map(|_| [mean(repeats[0], &mut first), mean(repeats[1], &mut second)]).collect()
}

/// The median over all rounds of the first call by the second.
pub fn ratio(seen: &[[f64; 2]]) -> f64 {
    median(seen.iter().map(|times| times[0] / times[1]))
}

/// How often a call is repeated in a round; the call is warm then.
fn repeats(call: &mut impl FnMut()) -> u32 {
    let start = Instant::now();
    let mut repeats = 0;
    while start.elapsed() < SHORTEST {
        call();
        repeats += 1;
    }
    repeats
}

/// The mean time of some repeats, in nanoseconds.
fn mean(repeats: u32, call: &mut impl FnMut()) -> f64 {
    let start = Instant::now();
    (0..repeats).for_each(|_| call());
    start.elapsed().as_nanos() as f64 / f64::from(repeats)
}

fn median(numbers: impl Iterator<Item = f64>) -> f64 {
    let mut numbers: Vec<f64> = numbers.collect();
    numbers.sort_unstable_by(f64::total_cmp);
    numbers[numbers.len() / 2]
}

#[cfg(test)]
mod tests {
    use super::*;

    #[test]
    fn the_ratio_is_that_of_the_middle_round() {
        assert_eq!(ratio(&[[6.0, 2.0], [1.0, 4.0], [9.0, 6.0]]), 1.5);
    }
}
