//! How the proved drawing grows with the survey.

use surveys::sized::{survey, Kind};

use crate::calls::{make, Call};
use crate::makers::Proved;
use crate::subject::Subject;
use crate::timing::{in_turns, ratio};
use crate::{leaves, LARGE, SEED};

/// A leaf's drawing may take this many times as long on the larger of the large surveys as on the smaller.
pub const MOST: f64 = 1.6;

/// How the drawing of a kind grows.
pub struct Growth {
    pub kind: Kind,
    /// The time of a leaf's drawing on the larger survey, by that on the smaller.
    pub growth: f64,
}

impl Growth {
    /// Draws both surveys of a kind in turns, the smaller as often in a turn as makes both take about as long: what else
    /// runs on the machine then slows both alike.
    pub fn timed(kind: Kind, rounds: usize) -> Growth {
        let [mut smaller, mut larger] = LARGE.map(|splits| Subject::new(survey(kind, splits, SEED)));
        let repeats = LARGE[1] / LARGE[0];
        let draw_larger = || make::<Proved>(Call::Draw, &mut larger);
        let draw_smaller = || (0..repeats).for_each(|_| make::<Proved>(Call::Draw, &mut smaller));
        let growth = ratio(&in_turns(rounds, draw_larger, draw_smaller));
        Growth { kind, growth: of_a_leaf(growth, repeats) }
    }

    /// Whether it grows too fast.
    pub fn is_too_fast(&self) -> bool {
        self.growth > MOST
    }
}

/// The growth of a leaf's time, from one drawing of the larger survey by so many of the smaller.
fn of_a_leaf(ratio: f64, repeats: usize) -> f64 {
    let [smaller, larger] = LARGE.map(leaves);
    ratio * (repeats * smaller) as f64 / larger as f64
}

#[cfg(test)]
mod tests {
    use super::*;

    #[test]
    fn the_same_time_for_as_many_leaves_is_no_growth() {
        let [smaller, larger] = LARGE.map(leaves);
        let once = larger as f64 / smaller as f64;
        assert_eq!(of_a_leaf(once, 1), 1.0);
        assert_eq!(of_a_leaf(1.5 * once / 4.0, 4), 1.5);
    }

    #[test]
    fn more_than_allowed_is_too_fast() {
        let is_too_fast = |growth| Growth { kind: Kind::Ball, growth }.is_too_fast();
        assert!(!is_too_fast(1.6));
        assert!(is_too_fast(1.61));
    }
}
