//! Surveys as their tables and the clearance, and how to make lawful ones.

use std::collections::BTreeSet;

/// The length of the box's edges.
pub const BOX_SIZE: u16 = 1_024;

/// The depth of the smallest cells.
pub const DEEPEST: u32 = 10;

/// A cell's place: its lowest corner and the length of its edges.
#[derive(Clone, Copy, Debug, PartialEq, Eq, PartialOrd, Ord)]
pub struct Cube {
    /// The corner with the lowest coordinates: x, y, z.
    pub low: [u16; 3],
    /// The length of the edges.
    pub size: u16,
}

impl Cube {
    /// The whole box.
    pub const BOX: Cube = Cube { low: [0; 3], size: BOX_SIZE };

    /// The depth of a cell of this size.
    pub fn depth(self) -> u32 {
        (BOX_SIZE / self.size).trailing_zeros()
    }

    /// The eight children in order of their places; none for a cell of depth 10.
    pub fn children(self) -> Vec<Cube> {
        match self.size / 2 {
            0 => Vec::new(),
            size => (0..8).map(|place| Cube { low: raised(self.low, place, size), size }).collect(),
        }
    }

    /// The eight corners in order of their places.
    pub fn corners(self) -> [[u16; 3]; 8] {
        std::array::from_fn(|place| raised(self.low, place, self.size))
    }
}

/// A place moved up by `length` on every axis whose bit is set in `bits`.
fn raised(low: [u16; 3], bits: usize, length: u16) -> [u16; 3] {
    std::array::from_fn(|axis| if bits >> axis & 1 == 1 { low[axis] + length } else { low[axis] })
}

/// Whether one of the six sides of the box holds a place.
pub fn on_outer_face(place: [u16; 3]) -> bool {
    place.contains(&0) || place.contains(&BOX_SIZE)
}

/// The cells of an octree by record number.
#[derive(Clone, Debug)]
pub struct Octree {
    /// Where each cell is.
    pub cubes: Vec<Cube>,
    /// Whether each cell is split.
    pub split: Vec<bool>,
}

impl Octree {
    /// The octree in which a cell is split if `splits` says so of its record number and its place. Cells of
    /// depth 10 are not split and not asked about.
    pub fn new(mut splits: impl FnMut(usize, Cube) -> bool) -> Octree {
        let mut octree = Octree { cubes: vec![Cube::BOX], split: Vec::new() };
        for record in 0.. {
            let Some(&cube) = octree.cubes.get(record) else { break };
            let split = cube.size > 1 && splits(record, cube);
            octree.split.push(split);
            if split {
                octree.cubes.extend(cube.children());
            }
        }
        octree
    }

    /// The octree with these records split and no others.
    pub fn splitting(records: &[usize]) -> Octree {
        Octree::new(|record, _| records.contains(&record))
    }

    /// The cell table: document 01, "The survey".
    pub fn cell_table(&self) -> Vec<u8> {
        let mut splits = 0;
        let entries = self.split.iter().map(|&split| {
            splits += u32::from(split);
            if split {
                8 * splits - 7
            } else {
                0
            }
        });
        cell_table(&entries.collect::<Vec<u32>>())
    }

    /// Every corner of every cell, rising by z, then y, then x.
    pub fn corner_places(&self) -> Vec<[u16; 3]> {
        let reversed = |[x, y, z]: [u16; 3]| [z, y, x];
        let places: BTreeSet<_> = self.cubes.iter().flat_map(|cube| cube.corners()).map(reversed).collect();
        places.into_iter().map(reversed).collect()
    }
}

/// A cell table with these entries, lawful or not.
pub fn cell_table(entries: &[u32]) -> Vec<u8> {
    entries.iter().flat_map(|entry| entry.to_le_bytes()).collect()
}

/// The cell table of a chain of eleven splits, so that a cell of depth 10 is split. Each split is in that
/// child of the split before whose place (0 to 7) is handed in.
pub fn too_deep_table(mut place: impl FnMut() -> usize) -> Vec<u8> {
    let mut entries = vec![0; 1 + 8 * 11];
    let mut record = 0;
    for first_child in (1..entries.len()).step_by(8) {
        entries[record] = first_child as u32;
        record = first_child + place();
    }
    cell_table(&entries)
}

/// A record of the corner table, or an amendment: document 02, "Resounding a few corners".
#[derive(Clone, Copy, Debug)]
pub struct Record {
    /// The corner's place: x, y, z.
    pub place: [u16; 3],
    /// The sounding there.
    pub sounding: f32,
    /// The day on which it was sounded.
    pub day: u16,
}

impl Record {
    /// The size of a record in bytes.
    pub const BYTES: usize = 12;

    /// The size that corner records had before they had a day.
    pub const BYTES_WITHOUT_DAY: usize = 10;

    /// The record as it stands in its table.
    pub fn bytes(self) -> Vec<u8> {
        let mut bytes: Vec<u8> = self.place.iter().flat_map(|coordinate| coordinate.to_le_bytes()).collect();
        bytes.extend(self.sounding.to_le_bytes());
        bytes.extend(self.day.to_le_bytes());
        bytes
    }
}

/// A table of these records.
pub fn table(records: impl IntoIterator<Item = Record>) -> Vec<u8> {
    records.into_iter().flat_map(Record::bytes).collect()
}

/// A corner table as it was before corner records had a day.
pub fn without_days(corners: &[u8]) -> Vec<u8> {
    let records = corners.chunks_exact(Record::BYTES);
    records.flat_map(|record| &record[..Record::BYTES_WITHOUT_DAY]).copied().collect()
}

/// A cell table, a corner table, an amendment table and a clearance, lawful or not.
#[derive(Clone, Debug, PartialEq)]
pub struct Survey {
    /// The cell table.
    pub cells: Vec<u8>,
    /// The corner table.
    pub corners: Vec<u8>,
    /// The amendment table.
    pub amendments: Vec<u8>,
    /// The clearance.
    pub clearance: f32,
}

impl Survey {
    /// A survey over an octree at clearance 0, with a sounding for each corner, asked for in record order. All are of day 0, and there are no
    /// amendments.
    pub fn new(octree: &Octree, mut sounding: impl FnMut([u16; 3]) -> f32) -> Survey {
        let record = |place| Record { place, sounding: sounding(place), day: 0 };
        Survey {
            cells: octree.cell_table(),
            corners: table(octree.corner_places().into_iter().map(record)),
            amendments: Vec::new(),
            clearance: 0.0,
        }
    }

    /// The same survey at another clearance.
    pub fn at(self, clearance: f32) -> Survey {
        Survey { clearance, ..self }
    }

    /// The same survey with these amendments and no others.
    pub fn amended(self, amendments: impl IntoIterator<Item = Record>) -> Survey {
        Survey { amendments: table(amendments), ..self }
    }
}
