//! The refusals of document 01's table and document 02's requests, by name, number and words.

use std::fmt;

/// Why a survey, a clearance, a calendar, a lent slice, an edge, a reference point, a way or a convoy is refused. Checks run in rising number, but for 12 and
/// 13, which stand between 8 and 9, 14 and 15, which stand between 6 and 7, and 16, 17 and 21, which stand between 7 and 8; the first that applies is given.
///
/// So refusals compare by number and not by the order of checks: only [`PointSlice`](Refusal::PointSlice) and
/// [`TriangleSlice`](Refusal::TriangleSlice) say that there is a drawing, and of the others that drawing gives 12 and 14 to 17 are above both.
///
/// More refusals may come with more calls, so a `match` needs an arm for the rest.
///
/// ```
/// use clearance::{Refusal, Survey};
///
/// let refusal = clearance::check(Survey::new(&[], &[])).unwrap_err();
/// assert_eq!(refusal, Refusal::CellTable);
/// assert_eq!(refusal.number(), 1);
/// assert_eq!(refusal.to_string(), "the cell table is empty, not whole records, or over 8,196 bytes");
/// ```
#[derive(Clone, Copy, Debug, PartialEq, Eq, PartialOrd, Ord, Hash)]
#[repr(u32)]
#[non_exhaustive]
pub enum Refusal {
    /// The cell table is empty, not whole records (4 bytes each), or over 8,196 bytes.
    CellTable = 1,
    /// The corner table is empty, not whole records (12 bytes each), or over 58,464 bytes.
    CornerTable = 2,
    /// A cell entry or the record count breaks the rule of the cell table.
    CellEntry = 3,
    /// A cell of depth 10 is split.
    TooDeep = 4,
    /// Corner records don't rise strictly by z, then y, then x.
    CornerOrder = 5,
    /// A cell's corner is missing, or a record is no cell's corner.
    CornerSet = 6,
    /// A sounding in force is not finite or beyond ±1,048,576. One that is overruled may hold anything.
    Sounding = 7,
    /// The clearance is not finite or beyond ±1,048,576. Of a calendar's only that in force is looked at, of a convoy's all are.
    Clearance = 8,
    /// The point slice is too short.
    PointSlice = 9,
    /// The triangle slice is too short.
    TriangleSlice = 10,
    /// No cell has the edge that was asked about.
    NoEdge = 11,
    /// The pool runs out of the surveyed box: a corner on an outer face is wet. Only drawing and the volume refuse it; such a survey still passes its
    /// check, and serves the enquiry and ways.
    OpenAtBox = 12,
    /// A coordinate of the volume's reference point is above 1,024.
    Reference = 13,
    /// The amendment table is not whole records (12 bytes each) or over 12,000 bytes. An empty one is lawful.
    AmendmentTable = 14,
    /// An amendment is at no cell's corner, whether its day is high enough to hold or not.
    AmendmentPlace = 15,
    /// The calendar is not whole records (12 bytes each), or some record breaks a rule: its from is not below its until, its until is above 527,040, or it
    /// begins before the one ahead of it has ended.
    Calendar = 16,
    /// The minute is in no record of the calendar. An empty calendar has none for any minute.
    Minute = 17,
    /// The start or the end of the way asked for is no corner: its number is not below the corner count.
    WayEnd = 18,
    /// The way slice or the work slice is shorter than the corner count, however short the way is.
    WaySlice = 19,
    /// No way over wet corners leads from the start to the end; the start or the end itself may be dry. [`way`](crate::way) and
    /// [`convoy`](crate::convoy) give `Ok(None)` for it, since the work slice is written.
    NoWay = 20,
    /// The convoy has no clearance or more than 16.
    Convoy = 21,
}

impl Refusal {
    /// All refusals, by rising number.
    pub const ALL: &'static [Refusal] = &[
        Refusal::CellTable,
        Refusal::CornerTable,
        Refusal::CellEntry,
        Refusal::TooDeep,
        Refusal::CornerOrder,
        Refusal::CornerSet,
        Refusal::Sounding,
        Refusal::Clearance,
        Refusal::PointSlice,
        Refusal::TriangleSlice,
        Refusal::NoEdge,
        Refusal::OpenAtBox,
        Refusal::Reference,
        Refusal::AmendmentTable,
        Refusal::AmendmentPlace,
        Refusal::Calendar,
        Refusal::Minute,
        Refusal::WayEnd,
        Refusal::WaySlice,
        Refusal::NoWay,
        Refusal::Convoy,
    ];

    /// The refusal's number in the documents: 1 to 21.
    pub const fn number(self) -> u32 {
        self as u32
    }

    /// The refusal of this number; `None` if there is none.
    ///
    /// ```
    /// use clearance::Refusal;
    ///
    /// assert_eq!(Refusal::from_number(13), Some(Refusal::Reference));
    /// assert_eq!(Refusal::from_number(0), None);
    /// ```
    pub fn from_number(number: u32) -> Option<Refusal> {
        Refusal::ALL.iter().copied().find(|refusal| refusal.number() == number)
    }
}

impl fmt::Display for Refusal {
    fn fmt(&self, text: &mut fmt::Formatter<'_>) -> fmt::Result {
        text.write_str(match self {
            Refusal::CellTable => "the cell table is empty, not whole records, or over 8,196 bytes",
            Refusal::CornerTable => "the corner table is empty, not whole records, or over 58,464 bytes",
            Refusal::CellEntry => "a cell entry or the record count breaks the rule of the cell table",
            Refusal::TooDeep => "a cell of depth 10 is split",
            Refusal::CornerOrder => "corner records don't rise strictly",
            Refusal::CornerSet => "a cell's corner is missing, or a record is no cell's corner",
            Refusal::Sounding => "a sounding in force is not finite or beyond ±1,048,576",
            Refusal::Clearance => "the clearance is not finite or beyond ±1,048,576",
            Refusal::PointSlice => "the point slice is too short",
            Refusal::TriangleSlice => "the triangle slice is too short",
            Refusal::NoEdge => "no cell has this edge",
            Refusal::OpenAtBox => "the pool runs out of the surveyed box (a corner on an outer face is wet)",
            Refusal::Reference => "a coordinate of the reference point is above 1,024",
            Refusal::AmendmentTable => "the amendment table is not whole records or over 12,000 bytes",
            Refusal::AmendmentPlace => "an amendment is at no cell's corner",
            Refusal::Calendar => "the calendar is not whole records or breaks a rule of calendars",
            Refusal::Minute => "the minute is in no record of the calendar",
            Refusal::WayEnd => "the start or the end is no corner",
            Refusal::WaySlice => "the way slice or the work slice is shorter than the corner count",
            Refusal::NoWay => "no way over wet corners leads from the start to the end",
            Refusal::Convoy => "the convoy has no clearance or more than 16",
        })
    }
}

impl std::error::Error for Refusal {}
