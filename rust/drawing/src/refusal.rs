//! The refusals of document 01's table and document 02's requests, by name.

/// Why a survey, a clearance, a calendar, a lent slice, an edge, a reference point, a way or a convoy is refused. Checks run in
/// rising number, but for 12 and 13, which stand between 8 and 9, 14 and 15, which stand between 6 and 7, and 16, 17 and 21,
/// which stand between 7 and 8.
#[derive(Clone, Copy, Debug, PartialEq, Eq)]
#[repr(u32)]
pub(crate) enum Refusal {
    /// The cell table is empty, not whole records, or too long.
    CellBytes = 1,
    /// The corner table is empty, not whole records, or too long.
    CornerBytes = 2,
    /// A cell entry or the record count breaks the rule of the cell table.
    CellEntry = 3,
    /// A cell of depth 10 is split.
    TooDeep = 4,
    /// Corner records don't rise strictly.
    CornerOrder = 5,
    /// A cell's corner is missing, or a record is no cell's corner.
    CornerSet = 6,
    /// A sounding in force is not finite or out of range.
    Sounding = 7,
    /// The clearance is not finite or out of range.
    Clearance = 8,
    /// The point slice is too short.
    PointSlice = 9,
    /// The triangle slice is too short.
    TriangleSlice = 10,
    /// No cell has the edge asked about.
    NoEdge = 11,
    /// A corner on an outer face of the box is wet.
    OpenAtBox = 12,
    /// A coordinate of the reference point is above 1,024.
    Reference = 13,
    /// The amendment table is not whole records, or too long.
    AmendmentBytes = 14,
    /// An amendment is at no cell's corner.
    AmendmentPlace = 15,
    /// The calendar is not whole records, or breaks a rule of calendars.
    Calendar = 16,
    /// The minute is in no record of the calendar.
    Minute = 17,
    /// The start or the end is no corner.
    WayEnd = 18,
    /// The way slice or the work slice is shorter than the corner count.
    WaySlice = 19,
    /// No way over wet corners leads from the start to the end.
    NoWay = 20,
    /// The convoy has no clearance or more than 16.
    Convoy = 21,
}

impl Refusal {
    /// The number that the table gives for this refusal.
    pub(crate) fn number(self) -> u32 {
        self as u32
    }
}
