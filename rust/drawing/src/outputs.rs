//! Points and triangles as they are handed over: document 01, "Outputs and refusals".

use crate::calendar::clearance_at;
use crate::checks;
use crate::crossings::Crossings;
use crate::edges::EdgeTrees;
use crate::loops::LoopWalk;
use crate::refusal::Refusal;
use crate::survey::Lawful;
use crate::Survey;

/// A drawn surface.
#[derive(Clone, Debug, Default, PartialEq)]
pub struct Drawing {
    /// x, y and z of each point.
    pub points: Vec<f32>,
    /// The three point numbers of each triangle.
    pub triangles: Vec<u32>,
}

/// The result of drawing into lent slices.
#[derive(Clone, Copy, Debug, PartialEq, Eq)]
pub struct Drawn {
    /// 0 if drawn, else the refusal.
    pub number: u32,
    /// How many points there are; 0 with every refusal but 9 and 10.
    pub points: u32,
    /// How many triangles there are; 0 with every refusal but 9 and 10.
    pub triangles: u32,
}

impl Drawn {
    /// Only refusals 9 and 10 give counts.
    pub(crate) fn refused(refusal: Refusal) -> Drawn {
        Drawn { number: refusal.number(), points: 0, triangles: 0 }
    }

    /// How many elements of the point and of the triangle slice were written: none if it was refused.
    pub fn written(self) -> [usize; 2] {
        match self.number {
            0 => [self.points, self.triangles].map(|count| 3 * count as usize),
            _ => [0; 2],
        }
    }
}

/// Draws a survey at a clearance: every check before those of reference and slices, then all points and all triangles.
pub(crate) fn drawing(survey: Survey, clearance: f32) -> Result<Drawing, Refusal> {
    lawful_drawing(&checks::read(survey)?, clearance)
}

/// Draws a survey at the clearance in force at a minute, as [`drawing`] does. The calendar's checks stand between those of
/// the survey and that of the clearance.
pub(crate) fn drawing_by_calendar(survey: Survey, calendar: &[u8], minute: u32) -> Result<Drawing, Refusal> {
    let survey = checks::read(survey)?;
    lawful_drawing(&survey, clearance_at(calendar, minute)?)
}

/// Draws a survey that is lawful by itself.
fn lawful_drawing(survey: &Lawful, clearance: f32) -> Result<Drawing, Refusal> {
    checks::clearance(clearance)?;
    checks::closed_at_box(survey, clearance)?;
    let trees = EdgeTrees::over(survey);
    let crossings = Crossings::on(survey, &trees, clearance);
    let points = (0..crossings.count() as u32).flat_map(|point| crossings.place(point)).collect();
    let mut triangles = Vec::new();
    let mut walk = LoopWalk::over(&crossings);
    for (record, cell) in survey.cells.iter().enumerate() {
        if cell.first_child.is_none() {
            walk.leaf_loops(record, |points| triangles.extend(fan(points)));
        }
    }
    Ok(Drawing { points, triangles })
}

/// The triangles of a loop: from its first point to each two that follow one another.
fn fan(points: &[u32]) -> impl Iterator<Item = u32> + '_ {
    points[1..].windows(2).flat_map(|pair| [points[0], pair[0], pair[1]])
}

impl Drawing {
    /// Checks 9 and 10, then fills the lent slices from the front.
    pub(crate) fn write(&self, points: &mut [f32], triangles: &mut [u32]) -> Drawn {
        let drawn = |number| Drawn {
            number,
            points: self.points.len() as u32 / 3,
            triangles: self.triangles.len() as u32 / 3,
        };
        if points.len() < self.points.len() {
            return drawn(Refusal::PointSlice.number());
        }
        if triangles.len() < self.triangles.len() {
            return drawn(Refusal::TriangleSlice.number());
        }
        points[..self.points.len()].copy_from_slice(&self.points);
        triangles[..self.triangles.len()].copy_from_slice(&self.triangles);
        drawn(0)
    }
}
