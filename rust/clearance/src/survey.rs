//! A survey as the calls take it.

/// The tables of a survey, as bytes that are lent: lawful or not, which the calls find out.
///
/// ```
/// use clearance::{count, Survey};
///
/// let [cells, corners] = ["cells", "corners"].map(|name| std::fs::read(format!("../../examples/twin/{name}")).unwrap());
/// let survey = Survey::new(&cells, &corners);
/// assert_eq!(count(survey, 0.0)?.triangles, 4);
///
/// // The twin survey's one wet corner, (256, 512, 512), has silted up: it was sounded again on day 120.
/// let mut amendment = Vec::new();
/// amendment.extend([256u16, 512, 512].iter().flat_map(|coordinate| coordinate.to_le_bytes()));
/// amendment.extend((-1f32).to_le_bytes());
/// amendment.extend(120u16.to_le_bytes());
/// assert_eq!(count(survey.amended(&amendment), 0.0)?.triangles, 0);
/// # Ok::<(), clearance::Refusal>(())
/// ```
#[derive(Clone, Copy, Debug)]
pub struct Survey<'a> {
    /// The cell table.
    pub cells: &'a [u8],
    /// The corner table.
    pub corners: &'a [u8],
    /// The amendment table: records like those of the corner table, in any order.
    pub amendments: &'a [u8],
}

impl<'a> Survey<'a> {
    /// A survey without amendments.
    pub const fn new(cells: &'a [u8], corners: &'a [u8]) -> Survey<'a> {
        Survey { cells, corners, amendments: &[] }
    }

    /// The same survey with these amendments, and with no others.
    pub const fn amended(self, amendments: &'a [u8]) -> Survey<'a> {
        Survey { amendments, ..self }
    }
}
