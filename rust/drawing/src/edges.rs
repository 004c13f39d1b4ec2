//! The edge-trees of a survey: document 01, "Edges, points and places"; document 003, 3.2.
//!
//! They depend on the cells alone, not on soundings or clearance.

use crate::survey::{corner_at, Cell, Lawful, DEEPEST};

/// The index of an edge in [`EdgeTrees`].
pub(crate) type EdgeId = usize;

/// An edge of some cell. Edges that several cells have with the same axis, lower end and length are one edge.
#[derive(Clone, Copy, Debug)]
pub(crate) struct TreeEdge {
    pub(crate) axis: usize,
    /// The depth of the cells that have this edge.
    pub(crate) level: u8,
    /// The corner records of the lower and the upper end.
    pub(crate) ends: [usize; 2],
    /// The lower and the upper half, if the edge is divided.
    pub(crate) halves: Option<[EdgeId; 2]>,
    /// The edge that this one is a half of, if that is an edge of some cell.
    pub(crate) above: Option<EdgeId>,
}

/// All edges of a survey by axis, then lower end's record, then depth. This is the order in which points are
/// numbered, since corner records rise by z, y and x, and since of the edges that start at one corner along
/// one axis only the shortest is undivided.
#[derive(Debug)]
pub(crate) struct EdgeTrees {
    edges: Vec<TreeEdge>,
    /// For each axis and corner record, how many edges come before those that start there; at the end, how
    /// many edges there are.
    starts: Vec<EdgeId>,
    corner_count: usize,
}

impl std::ops::Index<EdgeId> for EdgeTrees {
    type Output = TreeEdge;

    fn index(&self, edge: EdgeId) -> &TreeEdge {
        &self.edges[edge]
    }
}

impl EdgeTrees {
    /// The edge-trees over the cells of a survey.
    pub(crate) fn over(survey: &Lawful) -> EdgeTrees {
        let mut keys = Vec::with_capacity(CELL_EDGES.len() * survey.cells.len());
        for (cell, corners) in survey.cells.iter().zip(&survey.cell_corners) {
            keys.extend(cell_edges(cell, corners));
        }
        keys.sort_unstable();
        keys.dedup();
        let edges: Vec<TreeEdge> = keys.into_iter().map(EdgeKey::unlinked).collect();
        let corner_count = survey.corners.len();
        let mut trees = EdgeTrees { starts: starts(&edges, corner_count), edges, corner_count };
        trees.link_halves();
        trees
    }

    /// The number of edges.
    pub(crate) fn len(&self) -> usize {
        self.edges.len()
    }

    /// The edge that starts at this corner record, if some cell has it.
    pub(crate) fn find(&self, axis: usize, lower: usize, level: u8) -> Option<EdgeId> {
        let start = axis * self.corner_count + lower;
        (self.starts[start]..self.starts[start + 1]).find(|&edge| self.edges[edge].level == level)
    }

    /// The edge with this axis, lower end and length, if some cell has it. Any numbers may be asked about.
    pub(crate) fn find_by_place(
        &self,
        survey: &Lawful,
        axis: u32,
        [x, y, z]: [u32; 3],
        length: u32,
    ) -> Option<EdgeId> {
        let lawful_length = length.is_power_of_two() && length <= 1 << DEEPEST;
        if axis > 2 || !lawful_length {
            return None;
        }
        let coordinate = |number: u32| u16::try_from(number).ok();
        let place = [coordinate(x)?, coordinate(y)?, coordinate(z)?];
        let lower = corner_at(&survey.corners, place)?;
        self.find(axis as usize, lower, DEEPEST - length.trailing_zeros() as u8)
    }

    fn link_halves(&mut self) {
        for edge in 0..self.edges.len() {
            if let Some(halves) = self.find_halves(edge) {
                self.edges[edge].halves = Some(halves);
                halves.into_iter().for_each(|half| self.edges[half].above = Some(edge));
            }
        }
    }

    /// An edge is divided if some cell has one of its halves; both halves then are edges, so the lower one
    /// tells.
    fn find_halves(&self, edge: EdgeId) -> Option<[EdgeId; 2]> {
        let TreeEdge { axis, level, ends: [lower, _], .. } = self.edges[edge];
        let lower_half = self.find(axis, lower, level + 1)?;
        let middle = self.edges[lower_half].ends[1];
        Some([lower_half, self.find(axis, middle, level + 1)?])
    }
}

/// An edge as its cells name it, packed so that keys rise as edges do: axis, lower end's record (13 bits hold
/// 4,871), depth (4 bits hold 10), and the upper end's record, which follows from the others.
#[derive(Clone, Copy, PartialEq, Eq, PartialOrd, Ord)]
struct EdgeKey(u32);

impl EdgeKey {
    fn new(axis: usize, level: u8, lower: u16, upper: u16) -> EdgeKey {
        EdgeKey((axis as u32) << 30 | u32::from(lower) << 17 | u32::from(level) << 13 | u32::from(upper))
    }

    fn unlinked(self) -> TreeEdge {
        let field = |low_bit: u32, bits: u32| (self.0 >> low_bit & ((1 << bits) - 1)) as usize;
        TreeEdge {
            axis: field(30, 2),
            level: field(13, 4) as u8,
            ends: [field(17, 13), field(0, 13)],
            halves: None,
            above: None,
        }
    }
}

/// The edges of a cell: axis and place of the lower end.
const CELL_EDGES: [(usize, usize); 12] =
    [(0, 0), (0, 2), (0, 4), (0, 6), (1, 0), (1, 1), (1, 4), (1, 5), (2, 0), (2, 1), (2, 2), (2, 3)];

/// The twelve edges of a cell.
fn cell_edges(cell: &Cell, corners: &[u16; 8]) -> [EdgeKey; 12] {
    CELL_EDGES.map(|(axis, lower)| EdgeKey::new(axis, cell.level, corners[lower], corners[lower | 1 << axis]))
}

fn starts(edges: &[TreeEdge], corner_count: usize) -> Vec<EdgeId> {
    let mut starts = vec![0; 3 * corner_count + 1];
    for edge in edges {
        starts[edge.axis * corner_count + edge.ends[0] + 1] += 1;
    }
    for start in 1..starts.len() {
        starts[start] += starts[start - 1];
    }
    starts
}
