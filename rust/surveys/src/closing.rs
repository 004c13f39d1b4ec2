//! Demand 3, checked on a drawing by counting: document 01, "What closing says", without the exception about outer
//! faces, as document 02 wants it: "Basins cut off by the box".

use std::collections::HashMap;

use crate::plain::Plain;
use crate::Survey;

/// How a drawing breaks demand 3.
#[derive(Clone, Copy, Debug, PartialEq)]
pub enum Breach {
    /// The point slice holds not three numbers for each undivided edge with one wet and one dry end.
    PointCount {
        /// How many such edges there are.
        odd_edges: usize,
        /// How many numbers the point slice holds.
        elements: usize,
    },
    /// The triangle slice does not hold three numbers for each triangle.
    BrokenTriangle,
    /// A triangle meets a number that no edge carries.
    NoSuchPoint(u32),
    /// No triangle meets this point.
    Unmet(usize),
    /// The triangles run more often one way than the other.
    Unbalanced {
        /// The points run between.
        points: [u32; 2],
        /// How often the triangles run from the first to the second.
        forth: usize,
        /// How often they run from the second to the first.
        back: usize,
    },
    /// The point is not on the edge that carries it.
    OffEdge(usize),
    /// The point is on its edge, but not at the stated place to the bit.
    Misplaced(usize),
}

/// Checks the points and triangles drawn for a survey that is not refused for drawing.
pub fn check(survey: &Survey, points: &[f32], triangles: &[u32]) -> Result<(), Breach> {
    let plain = Plain::read(survey);
    let odd_edges = plain.carriers.len();
    if points.len() != 3 * odd_edges {
        return Err(Breach::PointCount { odd_edges, elements: points.len() });
    }
    check_met(odd_edges, triangles)?;
    check_balance(triangles)?;
    check_places(&plain, points)
}

/// Every triangle meets points that there are, and every point is met.
fn check_met(count: usize, triangles: &[u32]) -> Result<(), Breach> {
    if !triangles.len().is_multiple_of(3) {
        return Err(Breach::BrokenTriangle);
    }
    let mut met = vec![false; count];
    for &point in triangles {
        *met.get_mut(point as usize).ok_or(Breach::NoSuchPoint(point))? = true;
    }
    met.iter().position(|&met| !met).map_or(Ok(()), |point| Err(Breach::Unmet(point)))
}

/// The triangles run between every two points as often one way as the other.
fn check_balance(triangles: &[u32]) -> Result<(), Breach> {
    let mut runs: HashMap<[u32; 2], usize> = HashMap::new();
    for triangle in triangles.chunks_exact(3) {
        let [a, b, c] = [triangle[0], triangle[1], triangle[2]];
        for run in [[a, b], [b, c], [c, a]] {
            *runs.entry(run).or_default() += 1;
        }
    }
    for (&[from, to], &forth) in &runs {
        let back = runs.get(&[to, from]).copied().unwrap_or(0);
        if forth != back {
            return Err(Breach::Unbalanced { points: [from, to], forth, back });
        }
    }
    Ok(())
}

/// Every point is on its edge, ends included, and at the stated place to the bit.
fn check_places(plain: &Plain, points: &[f32]) -> Result<(), Breach> {
    for (number, (&edge, place)) in plain.carriers.iter().zip(points.chunks_exact(3)).enumerate() {
        let (low, high) = (edge.low().map(f32::from), edge.high().map(f32::from));
        if !(0..3).all(|axis| low[axis] <= place[axis] && place[axis] <= high[axis]) {
            return Err(Breach::OffEdge(number));
        }
        if plain.place(edge).map(f32::to_bits) != [0, 1, 2].map(|axis| place[axis].to_bits()) {
            return Err(Breach::Misplaced(number));
        }
    }
    Ok(())
}
