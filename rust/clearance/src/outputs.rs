//! What the calls hand back.

use std::error::Error;
use std::fmt;

use crate::Refusal;

/// An end of an edge: the lower or the upper one on the edge's axis.
#[derive(Clone, Copy, Debug, PartialEq, Eq, Hash)]
pub enum End {
    /// The end that an enquiry gives.
    Lower = 1,
    /// The end that lies the edge's length above it.
    Upper = 2,
}

impl End {
    /// The end that a reply names.
    pub(crate) const fn from_number(number: u32) -> Option<End> {
        match number {
            1 => Some(End::Lower),
            2 => Some(End::Upper),
            _ => None,
        }
    }
}

impl fmt::Display for End {
    fn fmt(&self, text: &mut fmt::Formatter<'_>) -> fmt::Result {
        text.write_str(match self {
            End::Lower => "lower end",
            End::Upper => "upper end",
        })
    }
}

/// What the enquiry says of an edge.
#[derive(Clone, Copy, Debug, PartialEq)]
pub enum Edge {
    /// Both ends are wet, or both are dry.
    Even,
    /// One end is wet and one is dry.
    Crossing {
        /// The number of the edge's crossing point among those of the survey at this clearance, from 0, also where
        /// it is not drawn ([`OpenAtBox`](crate::Refusal::OpenAtBox)). A drawing has its points in this order.
        number: u32,
        /// Where the point is: x, y and z.
        place: [f32; 3],
        /// Which end of the edge asked about is wet.
        wet_end: End,
    },
}

/// How many points and triangles a drawing has. Each takes three elements of its slice.
#[derive(Clone, Copy, Debug, Default, PartialEq, Eq, Hash)]
pub struct Counts {
    /// The number of points.
    pub points: u32,
    /// The number of triangles.
    pub triangles: u32,
}

impl Counts {
    /// How many elements of a point slice the points take.
    pub const fn point_elements(self) -> usize {
        3 * self.points as usize
    }

    /// How many elements of a triangle slice the triangles take.
    pub const fn triangle_elements(self) -> usize {
        3 * self.triangles as usize
    }
}

/// The space inside a surface that was drawn.
#[derive(Clone, Copy, Debug, Default, PartialEq, Eq, Hash)]
pub struct Water {
    /// How many points and triangles the drawing has.
    pub counts: Counts,
    /// Six times the volume, in cubic sixteenths of a unit; 0 for an empty drawing.
    pub sixfold: i64,
}

impl Water {
    /// The volume in cubic units: the sum by 6, and by the 4,096 cubic sixteenths of a cubic unit. The whole box has 1,073,741,824 cubic units.
    pub fn cubic_units(self) -> f64 {
        self.sixfold as f64 / 24_576.0
    }
}

/// A drawing that was refused. Neither lent slice was touched.
///
/// ```
/// let cells = std::fs::read("../../examples/twin/cells")?;
/// let corners = std::fs::read("../../examples/twin/corners")?;
/// let survey = clearance::Survey::new(&cells, &corners);
/// let refused = clearance::draw(survey, 0.0, &mut [], &mut []).unwrap_err();
/// assert_eq!(refused.to_string(), "the point slice is too short: the drawing has 4 points and 4 triangles");
/// # Ok::<(), std::io::Error>(())
/// ```
#[derive(Clone, Copy, Debug, PartialEq, Eq, Hash)]
pub struct Refused {
    /// Why.
    pub refusal: Refusal,
    /// With [`Refusal::PointSlice`] and [`Refusal::TriangleSlice`] the counts that the drawing needs; with every other refusal both 0.
    pub counts: Counts,
}

impl Refused {
    /// The counts, where there is a drawing and only a slice is too short for it.
    pub(crate) fn needed(self) -> Result<Counts, Refusal> {
        match self.refusal {
            Refusal::PointSlice | Refusal::TriangleSlice => Ok(self.counts),
            refusal => Err(refusal),
        }
    }
}

impl fmt::Display for Refused {
    fn fmt(&self, text: &mut fmt::Formatter<'_>) -> fmt::Result {
        let Refused { refusal, counts: Counts { points, triangles } } = self;
        match refusal {
            Refusal::PointSlice | Refusal::TriangleSlice => {
                write!(text, "{refusal}: the drawing has {points} points and {triangles} triangles")
            }
            _ => refusal.fmt(text),
        }
    }
}

impl Error for Refused {}

impl From<Refused> for Refusal {
    fn from(refused: Refused) -> Refusal {
        refused.refusal
    }
}

/// A drawing in vectors of its own.
#[derive(Clone, Debug, Default, PartialEq)]
pub struct Mesh {
    /// x, y and z of each point, by point number.
    pub points: Vec<[f32; 3]>,
    /// The point numbers of each triangle, in the order of document 01. Each loop runs with wet corners on its right, seen from outside its leaf, so
    /// the surface as a whole turns counter-clockwise seen from the dry side. This is tested, not proved, and a single triangle of the fan over a bent
    /// loop may turn the other way.
    pub triangles: Vec<[u32; 3]>,
}

/// An answer to "Can she get through?" in vectors of its own.
#[derive(Clone, Debug, Default, PartialEq, Eq)]
pub struct Passage {
    /// The corners of the way by record number, from the start to the end; `None` if there is no way.
    pub way: Option<Vec<u16>>,
    /// For each corner, by record number, its fewest steps from the start over wet corners; `None` if it is out of reach. From a dry start all are.
    pub steps: Vec<Option<u16>>,
}
