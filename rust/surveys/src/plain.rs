//! Document 01's cells, edges and points, and document 02's records in force, in their own words, for lawful surveys; and
//! the records of tables. Nothing here is fast.

use std::collections::{BTreeSet, HashMap};

use crate::calendars::Period;
use crate::survey::{Cube, Octree, Record};
use crate::Survey;

/// An edge of some cell. Edges compare by axis, then the lower end's z, y, x, then length.
#[derive(Clone, Copy, Debug, PartialEq, Eq, PartialOrd, Ord)]
pub struct Edge {
    /// The axis that the edge runs along.
    pub axis: usize,
    low_zyx: [u16; 3],
    /// The length.
    pub length: u16,
}

impl Edge {
    /// The edge along an axis from a lower end (x, y, z) over a length.
    pub fn new(axis: usize, [x, y, z]: [u16; 3], length: u16) -> Edge {
        Edge { axis, low_zyx: [z, y, x], length }
    }

    /// The lower end: x, y, z.
    pub fn low(self) -> [u16; 3] {
        let [z, y, x] = self.low_zyx;
        [x, y, z]
    }

    /// The upper end: x, y, z.
    pub fn high(self) -> [u16; 3] {
        self.shifted(i32::from(self.length), self.length).low()
    }

    /// The lower and the upper half of an edge longer than 1.
    pub fn halves(self) -> [Edge; 2] {
        let half = self.length / 2;
        [self.shifted(0, half), self.shifted(i32::from(half), half)]
    }

    /// An edge on the same line, from a lower end so much further up.
    fn shifted(self, by: i32, length: u16) -> Edge {
        let mut low = self.low();
        low[self.axis] = (i32::from(low[self.axis]) + by) as u16;
        Edge::new(self.axis, low, length)
    }
}

/// The twelve edges of a cell.
fn edges_of(cube: Cube) -> impl Iterator<Item = Edge> {
    (0..3).flat_map(move |axis| {
        let on_low_side = move |corner: &[u16; 3]| corner[axis] == cube.low[axis];
        let edge = move |corner| Edge::new(axis, corner, cube.size);
        cube.corners().into_iter().filter(on_low_side).map(edge)
    })
}

/// A lawful survey, taken apart.
pub struct Plain {
    /// The leaves by record number.
    pub leaves: Vec<Cube>,
    /// The edges of all cells.
    pub edges: BTreeSet<Edge>,
    /// The edge that carries each point, by the point's number.
    pub carriers: Vec<Edge>,
    soundings: HashMap<[u16; 3], f32>,
    clearance: f32,
}

impl Plain {
    /// Takes a lawful survey apart.
    pub fn read(survey: &Survey) -> Plain {
        let octree = octree(&survey.cells);
        let leaves = octree.cubes.iter().zip(&octree.split).filter(|&(_, split)| !split);
        let mut plain = Plain {
            leaves: leaves.map(|(&cube, _)| cube).collect(),
            edges: octree.cubes.iter().flat_map(|&cube| edges_of(cube)).collect(),
            carriers: Vec::new(),
            soundings: in_force(survey)
                .iter()
                .map(|held| (held.record.place, held.record.sounding))
                .collect(),
            clearance: survey.clearance,
        };
        // The set of edges is in the order of the numbers.
        let carries = |edge: &Edge| !plain.is_divided(*edge) && plain.is_odd(*edge);
        plain.carriers = plain.edges.iter().copied().filter(carries).collect();
        plain
    }

    /// Whether the corner at this place is wet: document 02, "Awash is dry".
    pub fn is_wet(&self, place: [u16; 3]) -> bool {
        self.soundings[&place] > self.clearance
    }

    /// Whether the ground at this place is exactly at the clearance.
    pub fn is_awash(&self, place: [u16; 3]) -> bool {
        self.soundings[&place] == self.clearance
    }

    /// Whether the ends of an edge differ in wetness.
    pub fn is_odd(&self, edge: Edge) -> bool {
        self.is_wet(edge.low()) != self.is_wet(edge.high())
    }

    /// Whether some cell has one of the halves of an edge as an edge.
    pub fn is_divided(&self, edge: Edge) -> bool {
        edge.length > 1 && edge.halves().iter().any(|half| self.edges.contains(half))
    }

    /// The edge above: the edge of some cell that this edge is a half of.
    pub fn above(&self, edge: Edge) -> Option<Edge> {
        let length = i32::from(edge.length);
        let reaches = |&by: &i32| by <= i32::from(edge.low()[edge.axis]);
        let candidates = [0, length].into_iter().filter(reaches);
        candidates.map(|by| edge.shifted(-by, 2 * edge.length)).find(|above| self.edges.contains(above))
    }

    /// The number of the point of an odd edge.
    pub fn point(&self, edge: Edge) -> usize {
        if self.is_divided(edge) {
            let odd_half = edge.halves().into_iter().find(|&half| self.is_odd(half));
            self.point(odd_half.expect("an odd divided edge has an odd half"))
        } else {
            self.carriers.binary_search(&edge).expect("an odd undivided edge carries a point")
        }
    }

    /// The twin of a point: from its edge to the first even edge above, then down the other half.
    pub fn twin(&self, point: usize) -> Option<usize> {
        let mut edge = self.carriers[point];
        let mut above = self.above(edge)?;
        while self.is_odd(above) {
            edge = above;
            above = self.above(edge)?;
        }
        above.halves().into_iter().find(|&half| half != edge).map(|other| self.point(other))
    }

    /// The dry and the wet end of an odd edge.
    pub fn dry_and_wet(&self, edge: Edge) -> [[u16; 3]; 2] {
        if self.is_wet(edge.high()) {
            [edge.low(), edge.high()]
        } else {
            [edge.high(), edge.low()]
        }
    }

    /// Document 01's t of an odd undivided edge: which part of the way from the dry to the wet end its point is.
    pub fn t(&self, edge: Edge) -> f32 {
        let [dry, wet] = self.dry_and_wet(edge).map(|end| self.soundings[&end]);
        let above_dry: f32 = self.clearance - dry;
        let wet_above_dry: f32 = wet - dry;
        above_dry / wet_above_dry
    }

    /// The place of the point on an odd undivided edge.
    pub fn place(&self, edge: Edge) -> [f32; 3] {
        let [dry_end, wet_end] = self.dry_and_wet(edge);
        let way: f32 = f32::from(edge.length) * self.t(edge);
        let from = f32::from(dry_end[edge.axis]);
        let mut place = dry_end.map(f32::from);
        place[edge.axis] = if wet_end == edge.high() { from + way } else { from - way };
        place
    }
}

/// The entries of a cell table.
pub fn entries(cells: &[u8]) -> impl Iterator<Item = usize> + '_ {
    cells.chunks_exact(4).map(|record| u32::from_le_bytes(record.try_into().expect("four bytes")) as usize)
}

/// The octree of a lawful cell table.
pub fn octree(cells: &[u8]) -> Octree {
    let entries: Vec<usize> = entries(cells).collect();
    Octree::new(|record, _| entries[record] != 0)
}

/// The records of a corner table or an amendment table.
pub fn records(table: &[u8]) -> impl Iterator<Item = Record> + '_ {
    table.chunks_exact(Record::BYTES).map(|record| {
        let number = |at: usize| u16::from_le_bytes([record[at], record[at + 1]]);
        Record {
            place: [number(0), number(2), number(4)],
            sounding: f32::from_le_bytes(record[6..10].try_into().expect("four bytes")),
            day: number(10),
        }
    })
}

/// The records of a calendar.
pub fn periods(calendar: &[u8]) -> impl Iterator<Item = Period> + '_ {
    calendar.chunks_exact(Period::BYTES).map(|record| {
        let four_bytes = |at: usize| record[at..at + 4].try_into().expect("four bytes");
        Period {
            from: u32::from_le_bytes(four_bytes(0)),
            until: u32::from_le_bytes(four_bytes(4)),
            clearance: f32::from_le_bytes(four_bytes(8)),
        }
    })
}

/// A record that holds at its corner.
#[derive(Clone, Copy, Debug)]
pub struct Held {
    /// The record.
    pub record: Record,
    /// Its number among the amendments; none if it is the corner table's.
    pub amendment: Option<usize>,
}

/// The record in force at each corner, in the order of the corner table, where every amendment is at a corner: document
/// 02, "Resounding a few corners".
pub fn in_force(survey: &Survey) -> Vec<Held> {
    let mut amendments: HashMap<[u16; 3], Vec<Held>> = HashMap::new();
    for (number, record) in records(&survey.amendments).enumerate() {
        amendments.entry(record.place).or_default().push(Held { record, amendment: Some(number) });
    }
    let holding = |record: Record| {
        let mut candidates = vec![Held { record, amendment: None }];
        candidates.extend(amendments.get(&record.place).into_iter().flatten());
        strongest(&candidates)
    };
    records(&survey.corners).map(holding).collect()
}

/// The sounding in force at each corner.
pub fn soundings(survey: &Survey) -> Vec<f32> {
    in_force(survey).iter().map(|held| held.record.sounding).collect()
}

/// Of the records for one corner, the corner table's and then the amendments in their order, that which holds: of those of
/// the highest day the last.
fn strongest(candidates: &[Held]) -> Held {
    let highest = candidates.iter().map(|held| held.record.day).max();
    *candidates.iter().rfind(|held| Some(held.record.day) == highest).expect("a corner has a record")
}
