//! The space inside a drawing: document 02, "Water in the pool".

use crate::outputs::{Drawing, Drawn};

/// The result of drawing into lent slices and reckoning the space inside.
#[derive(Clone, Copy, Debug, PartialEq, Eq)]
pub struct Water {
    /// The result of the drawing; with refusal 13 too both counts are 0.
    pub drawn: Drawn,
    /// Six times the space inside, in cubic sixteenths; 0 for an empty drawing and with every refusal.
    pub sixfold: i128,
}

/// A place in whole sixteenths.
type Place = [i128; 3];

impl Drawing {
    /// The sum over all triangles of the determinant of their corners, taken from the reference.
    pub(crate) fn sixfold(&self, reference: [u32; 3]) -> i128 {
        let origin = reference.map(|coordinate| 16 * i128::from(coordinate));
        let corner = |point: u32| {
            let first = 3 * point as usize;
            std::array::from_fn(|axis| taken_down(self.points[first + axis]) - origin[axis])
        };
        let corners =
            self.triangles.chunks_exact(3).map(|points| [points[0], points[1], points[2]].map(corner));
        corners.map(determinant).sum()
    }
}

/// A coordinate in sixteenths, rounded down. Sixteen times a binary32 is exact in binary64.
fn taken_down(coordinate: f32) -> i128 {
    (16.0 * f64::from(coordinate)).floor() as i128
}

/// a · (b × c).
fn determinant([a, b, c]: [Place; 3]) -> i128 {
    let cross = [b[1] * c[2] - b[2] * c[1], b[2] * c[0] - b[0] * c[2], b[0] * c[1] - b[1] * c[0]];
    (0..3).map(|axis| a[axis] * cross[axis]).sum()
}
