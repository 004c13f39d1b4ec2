//! What `info` and `volume` say of a survey.

use std::fmt;

use clearance::{Counts, Refusal, Water};
use surveys::survey::Cube;
use surveys::{plain, Survey};

use crate::files::tables;

/// Counts of a survey and of its drawing.
#[derive(Clone, Copy, Debug, PartialEq)]
pub struct Facts {
    /// Cell records.
    pub records: usize,
    /// The depth of the deepest cell; the box has depth 0.
    pub depth: u32,
    /// Cells that are not split.
    pub leaves: usize,
    /// Corner records.
    pub corners: usize,
    /// Amendments.
    pub amendments: usize,
    /// Those of them that are in force.
    pub in_force: usize,
    /// The clearance.
    pub clearance: f32,
    /// The drawing's points and triangles, and the space inside.
    pub water: Water,
}

/// The facts of a survey that is drawn.
pub fn facts(survey: &Survey) -> Result<Facts, Refusal> {
    let water = water(survey, [0; 3])?;
    let octree = plain::octree(&survey.cells);
    Ok(Facts {
        records: octree.cubes.len(),
        depth: octree.cubes.iter().map(|cube: &Cube| cube.depth()).max().unwrap_or(0),
        leaves: octree.split.iter().filter(|&&split| !split).count(),
        corners: plain::records(&survey.corners).count(),
        amendments: plain::records(&survey.amendments).count(),
        in_force: plain::in_force(survey).iter().filter(|held| held.amendment.is_some()).count(),
        clearance: survey.clearance,
        water,
    })
}

/// The space inside a survey's drawing, reckoned from a reference.
pub fn water(survey: &Survey, reference: [u32; 3]) -> Result<Water, Refusal> {
    clearance::volume_to_vec(tables(survey), survey.clearance, reference).map(|(_, water)| water)
}

/// A volume in cubic units, to the nearest thousandth and at equal distance the greater. It is reckoned in whole numbers, so that nothing is rounded but
/// the last digit.
pub fn cubic_units(sixfold: i64) -> String {
    const SIXFOLD: i128 = 6 * 4_096;
    let thousandths = (1_000 * i128::from(sixfold) + SIXFOLD / 2).div_euclid(SIXFOLD);
    let sign = if thousandths < 0 { "-" } else { "" };
    let size = thousandths.unsigned_abs();
    format!("{sign}{}.{:03}", size / 1_000, size % 1_000)
}

impl fmt::Display for Facts {
    fn fmt(&self, out: &mut fmt::Formatter) -> fmt::Result {
        writeln!(out, "records    {}", self.records)?;
        writeln!(out, "depth      {}", self.depth)?;
        writeln!(out, "leaves     {}", self.leaves)?;
        writeln!(out, "corners    {}", self.corners)?;
        if self.amendments > 0 {
            writeln!(out, "amendments {} ({} in force)", self.amendments, self.in_force)?;
        }
        writeln!(out, "clearance  {}", self.clearance)?;
        let Water { counts: Counts { points, triangles }, sixfold } = self.water;
        writeln!(out, "points     {points}")?;
        writeln!(out, "triangles  {triangles}")?;
        writeln!(out, "volume     {}", cubic_units(sixfold))
    }
}

#[cfg(test)]
mod tests {
    use super::*;
    use surveys::{document, resounded};

    #[test]
    fn amendments_are_counted_and_those_in_force() {
        let counted = |survey| facts(&survey).map(|facts| [facts.amendments, facts.in_force]);
        assert_eq!(counted(document::twin()), Ok([0, 0]));
        assert_eq!(counted(resounded::deepened()), Ok([2, 1]));
        assert_eq!(counted(resounded::deepened_twin()), Ok([3, 1]));
    }

    #[test]
    fn facts_of_the_twin_survey() {
        let facts = facts(&document::twin()).expect("a drawing");
        assert_eq!([facts.records, facts.leaves, facts.corners], [17, 15, 46]);
        assert_eq!(facts.depth, 2);
        // Half the product of two sides of 128, times a third of the side of 256; six times that in cubic sixteenths.
        let sixfold = 128 * 128 * 256 * 4_096;
        assert_eq!(facts.water, Water { counts: Counts { points: 4, triangles: 4 }, sixfold });
    }

    #[test]
    fn thousandths_of_cubic_units_are_rounded_once() {
        // A thousandth is 24.576 of the sum, half of it 12.288; 3,072 is an eighth of a unit, 1,536 a sixteenth, which is 62.5 thousandths.
        let cases = [
            (0, "0.000"),
            (12, "0.000"),
            (13, "0.001"),
            (-12, "0.000"),
            (-13, "-0.001"),
            (1_536, "0.063"),
            (-1_536, "-0.062"),
            (3_072, "0.125"),
            (24_576, "1.000"),
            (-24_576, "-1.000"),
            (24_576 - 13, "0.999"),
            (24_576 - 12, "1.000"),
            (i64::MAX, "375299968947541.333"),
            (i64::MIN, "-375299968947541.333"),
        ];
        for (sixfold, text) in cases {
            assert_eq!(cubic_units(sixfold), text, "{sixfold}");
        }
    }

    #[test]
    fn a_pool_that_runs_out_of_the_box_has_no_facts() {
        assert_eq!(facts(&document::one_corner_wet()), Err(Refusal::OpenAtBox));
    }
}
