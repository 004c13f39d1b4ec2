//! What a proved way may cost.

use crate::calls::Call;
use crate::table::{highest, Row};
use crate::LARGE;

/// The most that a proved way may take of the time of the proved drawing, on a large survey. The limit is our own; no document sets one. A way reads and checks the survey and
/// finds its edges as a drawing does, but has no points to place and no loops to follow.
pub const MOST: f64 = 0.7;

/// Whether a way across some large survey takes too long.
pub fn is_too_slow(rows: &[Row]) -> bool {
    highest(rows, &LARGE, |row| row.part_of_draw(Call::Way)) > MOST
}

#[cfg(test)]
mod tests {
    use surveys::sized::Kind;

    use super::*;
    use crate::timing::Timing;

    /// A row in which a way takes so much of the drawing, and every other call far more.
    fn row(splits: usize, way: f64) -> Row {
        let times = Call::ALL.map(|_| Timing { proved: 1.0, rust: 1.0, ratio: 1.0 });
        let by_draw = Call::BY_DRAW.map(|call| if call == Call::Way { way } else { 9.0 });
        Row { kind: Kind::Ball, splits, leaves: 1, points: 0, triangles: 0, times, by_draw, by_way: 9.0 }
    }

    #[test]
    fn a_way_across_a_large_survey_is_judged_and_nothing_else() {
        assert!(!is_too_slow(&[row(1, 2.0), row(8, 0.71), row(64, 0.7), row(256, 0.6)]));
        assert!(is_too_slow(&[row(1, 0.5), row(64, 0.71), row(256, 0.6)]));
        assert!(is_too_slow(&[row(1, 0.5), row(64, 0.6), row(256, 0.71)]));
    }
}
