//! Crossing points: numbers, twins and places. Document 01, "Edges, points and places".

use crate::edges::{EdgeId, EdgeTrees, TreeEdge};
use crate::survey::{length_at, Corner, Lawful};
use crate::End;

/// The crossing points of a survey at one clearance.
pub(crate) struct Crossings<'a> {
    pub(crate) survey: &'a Lawful,
    pub(crate) trees: &'a EdgeTrees,
    clearance: f32,
    /// Wetness by corner record.
    wet: Vec<bool>,
    /// The edge that carries each point.
    carriers: Vec<EdgeId>,
    /// The number on each odd undivided edge; on other edges without meaning.
    numbers: Vec<u32>,
}

impl<'a> Crossings<'a> {
    /// Numbers the points: edges stand in the order of the numbers already.
    pub(crate) fn on(survey: &'a Lawful, trees: &'a EdgeTrees, clearance: f32) -> Crossings<'a> {
        let wet = survey.corners.iter().map(|corner| corner.is_wet(clearance)).collect();
        let mut crossings =
            Crossings { survey, trees, clearance, wet, carriers: Vec::new(), numbers: vec![0; trees.len()] };
        for edge in 0..trees.len() {
            if trees[edge].halves.is_none() && crossings.is_odd(edge) {
                crossings.numbers[edge] = crossings.carriers.len() as u32;
                crossings.carriers.push(edge);
            }
        }
        crossings
    }

    /// The number of points.
    pub(crate) fn count(&self) -> usize {
        self.carriers.len()
    }

    /// Whether the corner of this record is wet.
    pub(crate) fn is_wet(&self, corner: usize) -> bool {
        self.wet[corner]
    }

    /// Whether the ends differ in wetness.
    fn is_odd(&self, edge: EdgeId) -> bool {
        let [lower, upper] = self.trees[edge].ends;
        self.wet[lower] != self.wet[upper]
    }

    /// The wet end of an odd edge.
    pub(crate) fn wet_end(&self, edge: EdgeId) -> End {
        let [_, upper] = self.trees[edge].ends;
        if self.is_wet(upper) {
            End::Upper
        } else {
            End::Lower
        }
    }

    /// The point of an odd edge: its own if undivided, else that of its odd half, and so on down.
    pub(crate) fn point_of(&self, edge: EdgeId) -> Option<u32> {
        if !self.is_odd(edge) {
            return None;
        }
        let mut odd = edge;
        while let Some([lower_half, upper_half]) = self.trees[odd].halves {
            odd = if self.is_odd(lower_half) { lower_half } else { upper_half };
        }
        Some(self.numbers[odd])
    }

    /// The twin of a point: up from its edge to the first even edge, then down that edge's other half.
    /// The climb goes through edges of cells only; a point with no even edge above it has no twin.
    pub(crate) fn twin(&self, point: u32) -> Option<u32> {
        let mut edge = self.carriers[point as usize];
        loop {
            let above = self.trees[edge].above?;
            if !self.is_odd(above) {
                let other = self.trees[above].halves?.into_iter().find(|&half| half != edge)?;
                return self.point_of(other);
            }
            edge = above;
        }
    }

    /// Where a point is, in binary32 with one rounding for each operation.
    pub(crate) fn place(&self, point: u32) -> [f32; 3] {
        let TreeEdge { axis, level, ends: [lower, upper], .. } = self.trees[self.carriers[point as usize]];
        let (dry, wet) = if self.is_wet(upper) { (lower, upper) } else { (upper, lower) };
        let [dry_end, wet_end]: [Corner; 2] = [self.survey.corners[dry], self.survey.corners[wet]];
        let t = (self.clearance - dry_end.sounding) / (wet_end.sounding - dry_end.sounding);
        let way = f32::from(length_at(level)) * t;
        let mut place = dry_end.place.map(f32::from);
        if wet == upper {
            place[axis] += way;
        } else {
            place[axis] -= way;
        }
        place
    }
}
