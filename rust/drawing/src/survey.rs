//! A survey that has passed every check of the survey by itself: document 01, "The survey".

/// The depth of the smallest cells.
pub(crate) const DEEPEST: u8 = 10;

/// A corner with its place, its sounding and the day on which it was sounded.
#[derive(Clone, Copy, Debug)]
pub(crate) struct Corner {
    pub(crate) place: [u16; 3],
    pub(crate) sounding: f32,
    pub(crate) day: u16,
}

impl Corner {
    /// Wet if the sounding is greater than the clearance: document 02, "Awash is dry". The two zeros are equal.
    pub(crate) fn is_wet(self, clearance: f32) -> bool {
        self.sounding > clearance
    }

    /// Whether one of the six sides of the box holds the corner.
    pub(crate) fn is_on_outer_face(self) -> bool {
        self.place.iter().any(|&coordinate| coordinate == 0 || coordinate == length_at(0))
    }

    /// Corner records rise strictly by this: z, then y, then x.
    pub(crate) fn rank(self) -> u64 {
        rank(self.place)
    }
}

fn rank([x, y, z]: [u16; 3]) -> u64 {
    u64::from(z) << 32 | u64::from(y) << 16 | u64::from(x)
}

/// The record of the corner at this place, among corners that rise strictly.
pub(crate) fn corner_at(corners: &[Corner], place: [u16; 3]) -> Option<usize> {
    corners.binary_search_by_key(&rank(place), |corner| corner.rank()).ok()
}

/// A cell of the octree. Its record number is its index in [`Lawful::cells`].
#[derive(Clone, Copy, Debug)]
pub(crate) struct Cell {
    /// The corner with the lowest coordinates.
    pub(crate) low: [u16; 3],
    /// The depth: 0 for the box.
    pub(crate) level: u8,
    /// The record of the first of eight children; none for a leaf.
    pub(crate) first_child: Option<usize>,
}

impl Cell {
    /// The length of the cell's edges.
    pub(crate) fn size(self) -> u16 {
        length_at(self.level)
    }

    /// The corner in place i (0 to 7): bit 0 of i set for the upper end of x, bit 1 of y, bit 2 of z.
    pub(crate) fn corner(self, place: usize) -> [u16; 3] {
        offset(self.low, place, self.size())
    }
}

/// The length of an edge of a cell of this depth.
pub(crate) fn length_at(level: u8) -> u16 {
    1 << (DEEPEST - level)
}

/// Moves a place up by `size` on each axis whose bit is set in `bits`.
pub(crate) fn offset(low: [u16; 3], bits: usize, size: u16) -> [u16; 3] {
    std::array::from_fn(|axis| low[axis] + size * (bits >> axis & 1) as u16)
}

/// One of the six sides of a cell.
#[derive(Clone, Copy, Debug, PartialEq, Eq)]
pub(crate) struct Side {
    /// The axis that the side stands across.
    pub(crate) axis: usize,
    /// Whether the side is at the cell's upper end on that axis.
    pub(crate) upper: bool,
}

impl Side {
    /// All six sides of a cell.
    pub(crate) const ALL: [Side; 6] = [
        Side { axis: 0, upper: false },
        Side { axis: 0, upper: true },
        Side { axis: 1, upper: false },
        Side { axis: 1, upper: true },
        Side { axis: 2, upper: false },
        Side { axis: 2, upper: true },
    ];

    /// The side of the cell across that lies against this one.
    pub(crate) fn opposite(self) -> Side {
        Side { upper: !self.upper, ..self }
    }

    /// The places of the four corners on this side, counter-clockwise as seen from outside the cell.
    /// The four children on this side have the same places.
    pub(crate) fn ring(self) -> [usize; 4] {
        let base = usize::from(self.upper) << self.axis;
        // Seen from above the axis, the next two axes in the order x, y, z, x turn counter-clockwise.
        let first = 1 << ((self.axis + 1) % 3);
        let second = 1 << ((self.axis + 2) % 3);
        if self.upper {
            [base, base | first, base | first | second, base | second]
        } else {
            [base, base | second, base | first | second, base | first]
        }
    }
}

/// A lawful survey.
#[derive(Debug)]
pub(crate) struct Lawful {
    /// The cells by record number.
    pub(crate) cells: Vec<Cell>,
    /// The corners by record number, each as it is in force.
    pub(crate) corners: Vec<Corner>,
    /// For each cell, the records of its eight corners by place.
    pub(crate) cell_corners: Vec<[u16; 8]>,
}

impl Lawful {
    /// The cell of the same size across a side of a cell, if there is one.
    pub(crate) fn across(&self, cell: usize, side: Side) -> Option<usize> {
        let Cell { mut low, level, .. } = self.cells[cell];
        let size = length_at(level);
        low[side.axis] = if side.upper {
            Some(low[side.axis] + size).filter(|&end| end < length_at(0))?
        } else {
            low[side.axis].checked_sub(size)?
        };
        self.cell_at(low, level)
    }

    /// The cell of this depth with this lowest corner; none where a leaf further up holds the place.
    fn cell_at(&self, low: [u16; 3], level: u8) -> Option<usize> {
        (DEEPEST - level..DEEPEST).rev().try_fold(0, |record, bit| {
            let place: usize = (0..3).map(|axis| usize::from(low[axis] >> bit & 1) << axis).sum();
            Some(self.cells[record].first_child? + place)
        })
    }

    /// Appends the leaves inside a cell, or the cell itself if it is a leaf, that touch this side of it.
    pub(crate) fn leaves_along(&self, cell: usize, side: Side, leaves: &mut Vec<usize>) {
        match self.cells[cell].first_child {
            None => leaves.push(cell),
            Some(first) => {
                for place in side.ring() {
                    self.leaves_along(first + place, side, leaves);
                }
            }
        }
    }
}
