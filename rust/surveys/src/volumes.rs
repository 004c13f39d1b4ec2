//! Surveys with the space inside their drawings, as it can be said by hand: document 02, "Water in the pool".

use crate::document::{
    awash_around, centre_sounded, centre_wet, level, open_inside_side, opposite_corners_wet, quarter_place,
    twin, two_on_a_line,
};
use crate::resounded::{deepened, dried};
use crate::Survey;

/// A survey that is drawn, and six times the space inside.
pub struct Held {
    /// What the survey shows. No other has this name.
    pub name: &'static str,
    /// The survey.
    pub survey: Survey,
    /// Six times the space inside, in cubic sixteenths.
    pub sixfold: i64,
}

/// Six times the space around one wet corner. Its points lie on the three lines through it, these widths apart, in
/// sixteenths. Where there are two on each line, they are the corners of an octahedron: eight tetrahedra meet in the wet
/// corner, each with a sixth of the product of three edges, and the eight products add up to that of the widths. Where
/// there is one point on a line, the wet corner itself stands for the other: it lies on the surface.
fn around(widths: [i64; 3]) -> i64 {
    widths.iter().product()
}

/// The surveys.
pub fn held() -> Vec<Held> {
    let held = |name, survey, sixfold| Held { name, survey, sixfold };
    // A third of 512 is 170 and two thirds. Taken down, 170 2/3 is 2,730 sixteenths and 853 1/3 is 13,653; to the nearest,
    // the first would be 2,731 and the width 10,922.
    let thirds = around([13_653 - 2_730; 3]);
    // Of the first corner 21 1/3 and 106 2/3 on x, which are 341 and 1,706, and 469 1/3 on y and z, which is 7,509; of the
    // second 170 2/3 and 426 2/3 on x, which are 2,730 and 6,826, and 426 2/3 on y and z. Wet is 512 there, 8,192.
    let uneven = around([1_706 - 341, 8_192 - 7_509, 8_192 - 7_509])
        + around([6_826 - 2_730, 8_192 - 6_826, 8_192 - 6_826]);
    vec![
        held("256 from the centre on every side", centre_wet(), around([8_192; 3])),
        held("all dry", level(-1.0), 0),
        held("every point at the wet centre", centre_sounded(0.0f32.next_up()), 0),
        held("every point at a dry end", awash_around(1.0, 0.0, 0.0), around([16_384; 3])),
        held("a third from the dry ends", centre_sounded(2.0), thirds),
        // Less than a sixteenth from the dry ends: 0 stays 0, but just under 1,024 is 16,383.
        held("next to the dry ends", centre_sounded(1_048_576.0), around([16_383; 3])),
        held("the twin survey", twin(), around([4_096, 2_048, 2_048])),
        held("dry -1 at 0, wet 3 at 256", quarter_place(), around([6_144, 3_072, 3_072])),
        held("open inside a side", open_inside_side(), around([1_024, 2_048, 1_024])),
        held(
            "two opposite wet corners",
            opposite_corners_wet(),
            around([4_096; 3]) + around([2_048, 2_048, 4_096]),
        ),
        held("deepened by an amendment", deepened(), around([12_288; 3])),
        held("dried by an amendment", dried(), 0),
        held("two on a line", two_on_a_line(1.0), around([1_024, 512, 512]) + around([3_072, 1_024, 1_024])),
        held("two on a line, uneven", two_on_a_line(2.0), uneven),
    ]
}
