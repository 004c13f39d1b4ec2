//! Clearance surfaces over a lock survey: the proved library as safe Rust.
//!
//! A [survey](Survey) is a cell table (an octree), a corner table (a sounding at every corner of every cell) and amendments to that, all as bytes. At a
//! clearance, given by hand or by a calendar and a minute, the surface between wet and dry corners is drawn as points on the octree's edges and triangles
//! between them; and from corner to corner the [way] of fewest steps over wet ones is shown, for one boat or for a [convoy]. The calls are those of
//! document 01, with what the requests of document 02 add and change; what they return, and what they write, is proved equal to the documents' rules for
//! every input. What can't be drawn or shown is refused by one of the 21 [refusals](Refusal). What is drawn is closed: between any two points triangles run
//! one way as often as the other. So the space inside is one number, wherever it is reckoned from.
//!
//! Nothing is kept between calls and nothing is allocated inside them, so any number of threads may call. A call needs less than 576 KiB of stack.
//!
//! # The tables
//!
//! All are little-endian records without a header, as the documents have them:
//!
//! - a cell is 4 bytes: 0 for a leaf, else the record number of the first of its eight children in a row. Record 0 is the box, from 0 to 1,024 on
//!   each axis; the child in place i is in the upper half of x, y and z by bits 0, 1 and 2 of i;
//! - a corner is 12 bytes: x, y and z (16 bits each), the sounding (binary32) and the number of the day on which it was sounded (16 bits). Corners rise
//!   by z, then y, then x;
//! - an amendment is a corner record too: a corner that was sounded again. There may be up to 1,000, in any order, and several for one corner;
//! - a record of a calendar is 12 bytes: its first minute and the minute at which it has ended (from and until, 32 bits each, minutes of the year), and the
//!   clearance in force meanwhile (binary32). [`draw_by_calendar`] says more.
//!
//! For each corner the record of the highest day holds. Among equal days an amendment beats the corner table, and a later amendment an earlier one. All
//! answers are those of the survey so amended.
//!
//! A corner is wet if its sounding is greater than the clearance, else dry: ground exactly at the clearance, just awash, is dry. The two zeros are
//! equal.
//!
//! ```
//! use clearance::{draw_to_vec, enquire, volume_to_vec, Edge, End, Refusal, Survey};
//!
//! fn record(place: [u16; 3], sounding: f32, day: u16) -> Vec<u8> {
//!     let place = place.iter().flat_map(|coordinate| coordinate.to_le_bytes());
//!     place.chain(sounding.to_le_bytes()).chain(day.to_le_bytes()).collect()
//! }
//!
//! // The box is split once: record 1 is the first of its eight children. Of the 27 corners only that in the middle is wet.
//! let cells: Vec<u8> = [1u32, 0, 0, 0, 0, 0, 0, 0, 0].iter().flat_map(|entry| entry.to_le_bytes()).collect();
//! let places = (0..27).map(|number: u16| [1, 3, 9].map(|step| 512 * (number / step % 3)));
//! let sounding = |place| if place == [512; 3] { 1.0 } else { -1.0 };
//! let corners: Vec<u8> = places.flat_map(|place| record(place, sounding(place), 100)).collect();
//! let survey = Survey::new(&cells, &corners);
//!
//! let mesh = draw_to_vec(survey, 0.0)?;
//! assert_eq!(mesh.points[..2], [[256.0, 512.0, 512.0], [768.0, 512.0, 512.0]]);
//! assert_eq!(mesh.triangles, [[0, 4, 2], [1, 2, 4], [0, 3, 4], [1, 4, 3], [0, 2, 5], [1, 5, 2], [0, 5, 3], [1, 3, 5]]);
//!
//! // An octahedron with its corners 256 from the middle holds 4/3 · 256³. Six times this in cubic sixteenths is a whole number.
//! let (_, water) = volume_to_vec(survey, 0.0, [0, 0, 0])?;
//! assert_eq!(water.sixfold, 8 * 256 * 256 * 256 * 4_096);
//! assert_eq!(water.cubic_units(), 4.0 / 3.0 * 256.0 * 256.0 * 256.0);
//!
//! let along_y = enquire(survey, 0.0, 1, [512, 512, 512], 512)?;
//! assert_eq!(along_y, Edge::Crossing { number: 3, place: [512.0, 768.0, 512.0], wet_end: End::Lower });
//!
//! // At a clearance of 1 that corner is awash, and dry as all others are.
//! assert_eq!(enquire(survey, 1.0, 1, [512, 512, 512], 512)?, Edge::Even);
//!
//! // It was dredged, and sounded again on day 131. What was sounded there on day 130 no longer holds, nor does the corner table.
//! let amendments = [record([512; 3], 3.0, 131), record([512; 3], 2.0, 130)].concat();
//! let along_y = enquire(survey.amended(&amendments), 0.0, 1, [512, 512, 512], 512)?;
//! assert_eq!(along_y, Edge::Crossing { number: 3, place: [512.0, 896.0, 512.0], wet_end: End::Lower });
//!
//! // A pool that runs out of the box, here at its corner (0, 0, 0), is not drawn. Its edges may still be asked about.
//! let open = record([0; 3], 3.0, 100);
//! assert_eq!(draw_to_vec(survey.amended(&open), 0.0), Err(Refusal::OpenAtBox));
//! let along_x = enquire(survey.amended(&open), 0.0, 0, [0, 0, 0], 512)?;
//! assert_eq!(along_x, Edge::Crossing { number: 0, place: [384.0, 0.0, 0.0], wet_end: End::Lower });
//!
//! let a_corner_less = Survey::new(&cells, &corners[12..]);
//! assert_eq!(draw_to_vec(a_corner_less, 0.0), Err(Refusal::CornerSet));
//! # Ok::<(), Refusal>(())
//! ```

#![deny(unsafe_code)]

#[allow(unsafe_code)] // the calls into the static library
mod exported;
mod outputs;
mod refusal;
mod survey;

pub use outputs::{Counts, Edge, End, Mesh, Passage, Refused, Water};
pub use refusal::Refusal;
pub use survey::Survey;

/// The number of the calls that this crate makes, as `CLEARANCE_VERSION` in the C header. It goes up with every change of what a call takes, returns or
/// refuses, and with every call that is added.
pub const VERSION: u32 = 3;

/// The size of a corner record in bytes.
const CORNER_BYTES: usize = 12;

/// The number of the calls that the archive has. It is [`VERSION`], unless `CLEARANCE_LIB` named another archive when this crate was built.
///
/// ```
/// assert_eq!(clearance::version(), clearance::VERSION);
/// ```
pub fn version() -> u32 {
    exported::version()
}

/// Checks a survey by itself. It may pass and yet not be drawn, since at some clearances a corner on an outer face is wet.
///
/// ```
/// use clearance::{check, Refusal, Survey};
///
/// let cells = std::fs::read("../../examples/twin/cells")?;
/// let corners = std::fs::read("../../examples/twin/corners")?;
/// check(Survey::new(&cells, &corners))?;
/// assert_eq!(check(Survey::new(&cells[..64], &corners)), Err(Refusal::CellEntry));
///
/// // The first record as an amendment to itself, and a part of it.
/// check(Survey::new(&cells, &corners).amended(&corners[..12]))?;
/// assert_eq!(check(Survey::new(&cells, &corners).amended(&corners[..11])), Err(Refusal::AmendmentTable));
/// # Ok::<(), Box<dyn std::error::Error>>(())
/// ```
///
/// # Errors
///
/// The first refusal of 1 to 6, 14, 15 and 7, in this order, that applies.
pub fn check(survey: Survey) -> Result<(), Refusal> {
    passed(exported::check(survey))
}

/// Asks about the edge of some cell that runs along an axis (0 to 2 for x, y, z) from its lower end (x, y, z) over a length. A survey that is refused for
/// drawing by [`Refusal::OpenAtBox`] is answered for too.
///
/// ```
/// use clearance::{enquire, Edge, End, Refusal, Survey};
///
/// let cells = std::fs::read("../../examples/twin/cells")?;
/// let corners = std::fs::read("../../examples/twin/corners")?;
/// let survey = Survey::new(&cells, &corners);
/// let edge = enquire(survey, 0.0, 0, [256, 512, 512], 256)?;
/// assert_eq!(edge, Edge::Crossing { number: 1, place: [384.0, 512.0, 512.0], wet_end: End::Lower });
/// assert_eq!(enquire(survey, 0.0, 0, [0, 512, 512], 512), Ok(Edge::Even));
/// assert_eq!(enquire(survey, 0.0, 3, [0, 0, 0], 512), Err(Refusal::NoEdge));
/// # Ok::<(), Box<dyn std::error::Error>>(())
/// ```
///
/// # Errors
///
/// The first refusal of [`check`], then 8, that applies; else [`Refusal::NoEdge`] where no cell has this edge.
pub fn enquire(
    survey: Survey,
    clearance: f32,
    axis: u32,
    lower_end: [u32; 3],
    length: u32,
) -> Result<Edge, Refusal> {
    let [x, y, z] = lower_end;
    let reply = exported::enquire(survey, clearance, exported::Edge { axis, x, y, z, length });
    passed(reply.number)?;
    Ok(match reply.crossing {
        0 => Edge::Even,
        _ => Edge::Crossing {
            number: reply.point,
            place: [reply.x, reply.y, reply.z],
            wet_end: End::from_number(reply.wet_end)
                .expect("the library names the wet end of a crossing edge"),
        },
    })
}

/// Draws the surface of a survey at a clearance into lent slices: three floats (x, y, z) a point and three point numbers a triangle, from the front
/// of each slice on. Elements past the last are untouched.
///
/// [`count`] tells beforehand how long the slices must be, [`draw_to_vec`] draws into vectors of its own.
///
/// ```
/// use clearance::{draw, Counts, Refusal, Survey};
///
/// let cells = std::fs::read("../../examples/twin/cells")?;
/// let corners = std::fs::read("../../examples/twin/corners")?;
/// let survey = Survey::new(&cells, &corners);
/// let (mut points, mut triangles) = ([0.0; 12], [0; 12]);
/// let counts = draw(survey, 0.0, &mut points, &mut triangles)?;
/// assert_eq!(counts, Counts { points: 4, triangles: 4 });
/// assert_eq!(points[..3], [128.0, 512.0, 512.0]);
/// assert_eq!(triangles, [0, 1, 3, 0, 2, 1, 0, 3, 2, 1, 2, 3]);
///
/// let refused = draw(survey, 0.0, &mut points, &mut triangles[..11]).unwrap_err();
/// assert_eq!(refused.refusal, Refusal::TriangleSlice);
/// assert_eq!(refused.counts, counts);
/// # Ok::<(), Box<dyn std::error::Error>>(())
/// ```
///
/// # Errors
///
/// The first refusal of [`check`], then 8, 12, 9 and 10, that applies; then neither slice was touched. With [`Refusal::PointSlice`] and
/// [`Refusal::TriangleSlice`] come the counts that the drawing needs.
pub fn draw(
    survey: Survey,
    clearance: f32,
    points: &mut [f32],
    triangles: &mut [u32],
) -> Result<Counts, Refused> {
    counted(exported::draw(survey, clearance, points, triangles))
}

/// Counts the points and triangles of a drawing without writing it down: how long lent slices must be.
///
/// ```
/// let cells = std::fs::read("../../examples/twin/cells")?;
/// let corners = std::fs::read("../../examples/twin/corners")?;
/// let counts = clearance::count(clearance::Survey::new(&cells, &corners), 0.0)?;
/// assert_eq!((counts.points, counts.triangles), (4, 4));
/// assert_eq!((counts.point_elements(), counts.triangle_elements()), (12, 12));
/// # Ok::<(), Box<dyn std::error::Error>>(())
/// ```
///
/// # Errors
///
/// The first refusal of [`check`], then 8, that applies; else [`Refusal::OpenAtBox`] where a corner on an outer face is wet.
pub fn count(survey: Survey, clearance: f32) -> Result<Counts, Refusal> {
    draw(survey, clearance, &mut [], &mut []).or_else(Refused::needed)
}

/// Draws the surface of a survey at a clearance into vectors that are exactly long enough.
///
/// ```
/// let cells = std::fs::read("../../examples/twin/cells")?;
/// let corners = std::fs::read("../../examples/twin/corners")?;
/// let mesh = clearance::draw_to_vec(clearance::Survey::new(&cells, &corners), 0.0)?;
/// assert_eq!(mesh.points[1], [384.0, 512.0, 512.0]);
/// assert_eq!(mesh.triangles, [[0, 1, 3], [0, 2, 1], [0, 3, 2], [1, 2, 3]]);
/// # Ok::<(), Box<dyn std::error::Error>>(())
/// ```
///
/// # Errors
///
/// The first refusal of [`check`], then 8, that applies; else [`Refusal::OpenAtBox`] where a corner on an outer face is wet.
pub fn draw_to_vec(survey: Survey, clearance: f32) -> Result<Mesh, Refusal> {
    into_vectors(|points, triangles| draw(survey, clearance, points, triangles)).map(|(mesh, _)| mesh)
}

/// Draws at the clearance in force at a minute of a calendar: the result, and the elements of both slices, are those of [`draw`] at that clearance given by
/// hand. This is proved.
///
/// A record is in force from the minute `from` up to, not including, the minute `until`. Each from is below its until, each until is at most 527,040 (the end
/// of a year of 366 days), and no record begins before the one ahead of it has ended, though it may begin at that very minute. There may be gaps, and no
/// records at all. Only the clearance in force must be lawful; that of any other record may be anything. A calendar of any length is read once.
///
/// [`draw_by_calendar_to_vec`] draws into vectors of its own.
///
/// ```
/// use clearance::{draw, draw_by_calendar, Refusal, Survey};
///
/// fn record(from: u32, until: u32, clearance: f32) -> Vec<u8> {
///     [from.to_le_bytes(), until.to_le_bytes(), clearance.to_le_bytes()].concat()
/// }
///
/// let cells = std::fs::read("../../examples/twin/cells")?;
/// let corners = std::fs::read("../../examples/twin/corners")?;
/// let survey = Survey::new(&cells, &corners);
/// let (mut points, mut triangles) = ([0.0; 12], [0; 12]);
///
/// // From day 100 on a clearance of 0, in the flood week from day 120 on of 0.5, then of 0 again until day 300.
/// let day = |number: u32| 1_440 * (number - 1);
/// let season = [
///     record(day(100), day(120), 0.0),
///     record(day(120), day(127), 0.5),
///     record(day(127), day(300), 0.0),
/// ];
/// let counts = draw_by_calendar(survey, &season.concat(), day(120), &mut points, &mut triangles)?;
/// assert_eq!((counts.points, points[0]), (4, 192.0));
/// let by_hand = draw(survey, 0.5, &mut points, &mut triangles)?;
/// assert_eq!((counts, points[0]), (by_hand, 192.0));
///
/// // The minute at which the last record ends is in none.
/// let refused = draw_by_calendar(survey, &season.concat(), day(300), &mut points, &mut triangles).unwrap_err();
/// assert_eq!(refused.refusal, Refusal::Minute);
/// // The flood week begins before the record ahead of it has ended.
/// let [before, _, after] = season;
/// let overlapping = [before, record(day(120) - 1, day(127), 0.5), after].concat();
/// let refused = draw_by_calendar(survey, &overlapping, day(200), &mut points, &mut triangles).unwrap_err();
/// assert_eq!(refused.refusal, Refusal::Calendar);
/// # Ok::<(), Box<dyn std::error::Error>>(())
/// ```
///
/// # Errors
///
/// The first refusal of [`check`], then 16, 17, 8, 12, 9 and 10, that applies; then neither slice was touched. With [`Refusal::PointSlice`] and
/// [`Refusal::TriangleSlice`] come the counts that the drawing needs.
pub fn draw_by_calendar(
    survey: Survey,
    calendar: &[u8],
    minute: u32,
    points: &mut [f32],
    triangles: &mut [u32],
) -> Result<Counts, Refused> {
    counted(exported::draw_by_calendar(survey, calendar, minute, points, triangles))
}

/// Draws at the clearance in force at a minute of a calendar, as [`draw_by_calendar`] does, into vectors that are exactly long enough.
///
/// ```
/// use clearance::{draw_by_calendar_to_vec, draw_to_vec, Refusal, Survey};
///
/// let cells = std::fs::read("../../examples/twin/cells")?;
/// let corners = std::fs::read("../../examples/twin/corners")?;
/// let survey = Survey::new(&cells, &corners);
/// // A clearance of 0.5 in the first hour of the year.
/// let calendar = [0u32.to_le_bytes(), 60u32.to_le_bytes(), 0.5f32.to_le_bytes()].concat();
/// assert_eq!(draw_by_calendar_to_vec(survey, &calendar, 59)?, draw_to_vec(survey, 0.5)?);
/// assert_eq!(draw_by_calendar_to_vec(survey, &calendar, 60), Err(Refusal::Minute));
/// # Ok::<(), Box<dyn std::error::Error>>(())
/// ```
///
/// # Errors
///
/// The first refusal of [`check`], then 16, 17, 8 and 12, that applies.
pub fn draw_by_calendar_to_vec(survey: Survey, calendar: &[u8], minute: u32) -> Result<Mesh, Refusal> {
    into_vectors(|points, triangles| draw_by_calendar(survey, calendar, minute, points, triangles))
        .map(|(mesh, _)| mesh)
}

/// Draws as [`draw`] does, with the same counts and the same elements in both slices, and reckons the space inside the surface.
///
/// Each coordinate of each point is taken down to a whole sixteenth of a unit, for the reckoning alone. The sum, over all triangles, of the determinant of
/// the three corners taken from the reference point (x, y, z) is six times the volume. The reference is a point of the box in whole units. The sum is the
/// same for every such point, and 64 bits hold it: both are proved.
///
/// [`volume_to_vec`] draws into vectors of its own.
///
/// ```
/// use clearance::{volume, Refusal, Survey};
///
/// let cells = std::fs::read("../../examples/twin/cells")?;
/// let corners = std::fs::read("../../examples/twin/corners")?;
/// let survey = Survey::new(&cells, &corners);
/// let (mut points, mut triangles) = ([0.0; 12], [0; 12]);
/// let water = volume(survey, 0.0, [1_024, 0, 512], &mut points, &mut triangles)?;
/// // A tetrahedron with sides of 256, 128 and 128 units: a sixth of their product.
/// assert_eq!(water.sixfold, 256 * 128 * 128 * 4_096);
/// assert_eq!(water, volume(survey, 0.0, [0, 0, 0], &mut points, &mut triangles)?);
/// assert_eq!(triangles, [0, 1, 3, 0, 2, 1, 0, 3, 2, 1, 2, 3]);
///
/// let refused = volume(survey, 0.0, [0, 1_025, 0], &mut points, &mut triangles).unwrap_err();
/// assert_eq!(refused.refusal, Refusal::Reference);
/// # Ok::<(), Box<dyn std::error::Error>>(())
/// ```
///
/// # Errors
///
/// The first refusal of [`check`], then 8, 12, 13, 9 and 10, that applies; then neither slice was touched. With [`Refusal::PointSlice`] and
/// [`Refusal::TriangleSlice`] come the counts that the drawing needs.
pub fn volume(
    survey: Survey,
    clearance: f32,
    reference: [u32; 3],
    points: &mut [f32],
    triangles: &mut [u32],
) -> Result<Water, Refused> {
    let [x, y, z] = reference;
    let exported::Water { number, points, triangles, sixfold } =
        exported::volume(survey, clearance, exported::Reference { x, y, z }, points, triangles);
    assert!(number == 0 || sixfold == 0, "refusal {number} with a sum of {sixfold}");
    let counts = Counts { points, triangles };
    passed(number).map(|()| Water { counts, sixfold }).map_err(|refusal| Refused { refusal, counts })
}

/// Draws the surface into vectors that are exactly long enough, and reckons the space inside, as [`volume`] does.
///
/// ```
/// use clearance::{draw_to_vec, volume_to_vec, Survey};
///
/// let cells = std::fs::read("../../examples/twin/cells")?;
/// let corners = std::fs::read("../../examples/twin/corners")?;
/// let survey = Survey::new(&cells, &corners);
/// let (mesh, water) = volume_to_vec(survey, 0.0, [0, 0, 0])?;
/// assert_eq!(mesh, draw_to_vec(survey, 0.0)?);
/// assert_eq!(water.cubic_units(), 256.0 * 128.0 * 128.0 / 6.0);
/// # Ok::<(), Box<dyn std::error::Error>>(())
/// ```
///
/// # Errors
///
/// The first refusal of [`check`], then 8, 12 and 13, that applies.
pub fn volume_to_vec(survey: Survey, clearance: f32, reference: [u32; 3]) -> Result<(Mesh, Water), Refusal> {
    into_vectors(|points, triangles| volume(survey, clearance, reference, points, triangles))
}

/// Shows a way from corner to corner, both given by record number: corners joined by edges that are not divided, each wet in the survey as amended, with
/// the fewest steps. Of equally short ways it is the one with the lowest record number at the first place where they differ. A wet corner has a way of
/// one corner to itself. A pool that runs out of the surveyed box ([`Refusal::OpenAtBox`]) serves as any other.
///
/// `Ok(Some(count))`: the first `count` elements of `way` are the way's corners, from the start to the end. `Ok(None)`: there is no way, and `way` is
/// untouched. With both, `work` holds for each corner its fewest steps from the start plus one, or 0 if it is out of reach; all are 0 if the start is dry.
/// Elements past these are untouched. Both slices must have as many elements as the corner table has records, however short the way is.
///
/// [`way_to_vec`] shows it in vectors of its own.
///
/// ```
/// use clearance::{way, Refusal, Survey};
///
/// fn record(number: u16, sounding: f32) -> Vec<u8> {
///     let place = [0, 1, 2].map(|axis| 1_024 * (number >> axis & 1));
///     let place = place.iter().flat_map(|coordinate| coordinate.to_le_bytes());
///     place.chain(sounding.to_le_bytes()).chain(0u16.to_le_bytes()).collect()
/// }
///
/// // The box is one leaf, and all of its eight corners are wet: 0 to 3 at the bottom, 4 to 7 above them.
/// let corners: Vec<u8> = (0..8).flat_map(|number| record(number, 1.0)).collect();
/// let survey = Survey::new(&[0; 4], &corners);
/// let (mut shown, mut work) = ([0; 8], [0; 8]);
/// assert_eq!(way(survey, 0.0, 0, 3, &mut shown, &mut work)?, Some(3));
/// assert_eq!((&shown[..3], work), (&[0, 1, 3][..], [1, 2, 2, 3, 2, 3, 3, 4]));
///
/// // Corner 1 has silted up, then corner 2 too, then corner 7 on the way around both.
/// let silted = [1, 2, 7].map(|number| record(number, -1.0)).concat();
/// assert_eq!(way(survey.amended(&silted[..12]), 0.0, 0, 3, &mut shown, &mut work)?, Some(3));
/// assert_eq!(shown[..3], [0, 2, 3]);
/// assert_eq!(way(survey.amended(&silted[..24]), 0.0, 0, 3, &mut shown, &mut work)?, Some(5));
/// assert_eq!(shown[..5], [0, 4, 5, 7, 3]);
/// assert_eq!(way(survey.amended(&silted), 0.0, 0, 3, &mut shown, &mut work)?, None);
/// assert_eq!(work, [1, 0, 0, 0, 2, 3, 3, 0]);
///
/// assert_eq!(way(survey, 0.0, 0, 8, &mut shown, &mut work), Err(Refusal::WayEnd));
/// assert_eq!(way(survey, 0.0, 0, 0, &mut shown[..7], &mut work), Err(Refusal::WaySlice));
/// # Ok::<(), Refusal>(())
/// ```
///
/// # Errors
///
/// The first refusal of [`check`], then 8, 18 and 19, that applies; then neither slice was touched.
pub fn way(
    survey: Survey,
    clearance: f32,
    start: u32,
    end: u32,
    way: &mut [u16],
    work: &mut [u16],
) -> Result<Option<usize>, Refusal> {
    shown(exported::way(survey, clearance, [start, end], way, work))
}

/// Shows a way as [`way`] does, in vectors that are exactly long enough.
///
/// ```
/// use clearance::{way_to_vec, Survey};
///
/// // The twin survey's one wet corner, (256, 512, 512), is record 31; the last one, 45, is (1024, 1024, 1024).
/// let cells = std::fs::read("../../examples/twin/cells")?;
/// let corners = std::fs::read("../../examples/twin/corners")?;
/// let survey = Survey::new(&cells, &corners);
/// let nowhere = way_to_vec(survey, 0.0, 31, 45)?;
/// assert_eq!(nowhere.way, None);
/// assert_eq!((nowhere.steps[31], nowhere.steps[45]), (Some(0), None));
///
/// // Below a clearance of -1 every corner is wet.
/// let through = way_to_vec(survey, -2.0, 31, 45)?;
/// assert_eq!(through.way, Some(vec![31, 32, 33, 36, 45]));
/// assert_eq!(through.steps[45], Some(4));
/// # Ok::<(), Box<dyn std::error::Error>>(())
/// ```
///
/// # Errors
///
/// The first refusal of [`check`], then 8 and 18, that applies.
pub fn way_to_vec(survey: Survey, clearance: f32, start: u32, end: u32) -> Result<Passage, Refusal> {
    passage_into_vectors(survey, |shown, work| way(survey, clearance, start, end, shown, work))
}

/// Shows one way for the boats of a convoy, 1 to 16 clearances: as [`way`] does, but over corners that are wet at all of them. The result, and the elements of
/// both slices, are those of [`way`] at the greatest of them. This is proved. Where the greatest is zero, it is the same whether +0 or -0 is taken.
///
/// [`convoy_to_vec`] shows it in vectors of its own.
///
/// ```
/// use clearance::{convoy, way, Refusal, Survey};
///
/// fn record(number: u16, sounding: f32) -> Vec<u8> {
///     let place = [0, 1, 2].map(|axis| 1_024 * (number >> axis & 1));
///     let place = place.iter().flat_map(|coordinate| coordinate.to_le_bytes());
///     place.chain(sounding.to_le_bytes()).chain(0u16.to_le_bytes()).collect()
/// }
///
/// // The box is one leaf. All of its eight corners are wet at a clearance of 1, but corner 1 is dry at one of 2.
/// let corners: Vec<u8> = (0..8).flat_map(|number| record(number, if number == 1 { 1.5 } else { 3.0 })).collect();
/// let survey = Survey::new(&[0; 4], &corners);
/// let (mut shown, mut work) = ([0; 8], [0; 8]);
/// assert_eq!(convoy(survey, &[1.0, 0.5], 0, 3, &mut shown, &mut work)?, Some(3));
/// assert_eq!(shown[..3], [0, 1, 3]);
/// assert_eq!(convoy(survey, &[1.0, 2.0, 0.5], 0, 3, &mut shown, &mut work)?, Some(3));
/// assert_eq!((&shown[..3], work), (&[0, 2, 3][..], [1, 0, 2, 3, 2, 3, 3, 4]));
/// let (mut for_one, mut work_for_one) = ([0; 8], [0; 8]);
/// assert_eq!(way(survey, 2.0, 0, 3, &mut for_one, &mut work_for_one)?, Some(3));
/// assert_eq!((&shown[..3], work), (&for_one[..3], work_for_one));
/// assert_eq!(convoy(survey, &[1.0, 2.0, 3.0], 0, 3, &mut shown, &mut work)?, None);
///
/// assert_eq!(convoy(survey, &[], 0, 3, &mut shown, &mut work), Err(Refusal::Convoy));
/// assert_eq!(convoy(survey, &[1.0; 17], 0, 3, &mut shown, &mut work), Err(Refusal::Convoy));
/// assert_eq!(convoy(survey, &[1.0, f32::NAN], 0, 3, &mut shown, &mut work), Err(Refusal::Clearance));
/// # Ok::<(), Refusal>(())
/// ```
///
/// # Errors
///
/// The first refusal of [`check`], then 21, 8, 18 and 19, that applies; then neither slice was touched.
pub fn convoy(
    survey: Survey,
    clearances: &[f32],
    start: u32,
    end: u32,
    way: &mut [u16],
    work: &mut [u16],
) -> Result<Option<usize>, Refusal> {
    shown(exported::convoy(survey, clearances, [start, end], way, work))
}

/// Shows one way for the boats of a convoy as [`convoy`] does, in vectors that are exactly long enough.
///
/// ```
/// use clearance::{convoy_to_vec, way_to_vec, Refusal, Survey};
///
/// // The twin survey's one wet corner, (256, 512, 512), is record 31; the last one, 45, is (1024, 1024, 1024). Below a clearance of -1 every corner is wet.
/// let cells = std::fs::read("../../examples/twin/cells")?;
/// let corners = std::fs::read("../../examples/twin/corners")?;
/// let survey = Survey::new(&cells, &corners);
/// let through = convoy_to_vec(survey, &[-2.0, -1.5], 31, 45)?;
/// assert_eq!(through, way_to_vec(survey, -1.5, 31, 45)?);
/// assert_eq!(through.way, Some(vec![31, 32, 33, 36, 45]));
///
/// // One more boat, which can't get through.
/// let nowhere = convoy_to_vec(survey, &[-2.0, -1.5, 0.0], 31, 45)?;
/// assert_eq!(nowhere.way, None);
/// assert_eq!((nowhere.steps[31], nowhere.steps[45]), (Some(0), None));
/// assert_eq!(convoy_to_vec(survey, &[], 31, 45), Err(Refusal::Convoy));
/// # Ok::<(), Box<dyn std::error::Error>>(())
/// ```
///
/// # Errors
///
/// The first refusal of [`check`], then 21, 8 and 18, that applies.
pub fn convoy_to_vec(survey: Survey, clearances: &[f32], start: u32, end: u32) -> Result<Passage, Refusal> {
    passage_into_vectors(survey, |shown, work| convoy(survey, clearances, start, end, shown, work))
}

/// Makes a call that shows a way, with vectors that have an element for each corner of the survey.
fn passage_into_vectors(
    survey: Survey,
    call: impl FnOnce(&mut [u16], &mut [u16]) -> Result<Option<usize>, Refusal>,
) -> Result<Passage, Refusal> {
    let records = survey.corners.len() / CORNER_BYTES;
    let (mut shown, mut work) = (vec![0; records], vec![0; records]);
    let count = call(&mut shown, &mut work)?;
    let way = count.map(|count| {
        shown.truncate(count);
        shown
    });
    Ok(Passage { way, steps: work.into_iter().map(|one_more| one_more.checked_sub(1)).collect() })
}

/// Makes a call that draws with empty slices for its counts, then with vectors that are exactly long enough. An empty drawing is done after the first.
fn into_vectors<T>(
    mut call: impl FnMut(&mut [f32], &mut [u32]) -> Result<T, Refused>,
) -> Result<(Mesh, T), Refusal> {
    let counts = match call(&mut [], &mut []) {
        Ok(result) => return Ok((Mesh::default(), result)),
        Err(refused) => refused.needed()?,
    };
    let mut mesh = Mesh {
        points: vec![[0.0; 3]; counts.points as usize],
        triangles: vec![[0; 3]; counts.triangles as usize],
    };
    let result = call(mesh.points.as_flattened_mut(), mesh.triangles.as_flattened_mut())?;
    Ok((mesh, result))
}

/// What a drawing returned.
fn counted(exported::Counts { number, points, triangles }: exported::Counts) -> Result<Counts, Refused> {
    let counts = Counts { points, triangles };
    passed(number).map(|()| counts).map_err(|refusal| Refused { refusal, counts })
}

/// What a call that shows a way returned: the count of its corners, or that there is none.
fn shown(exported::Passage { number, corners }: exported::Passage) -> Result<Option<usize>, Refusal> {
    assert!(number == 0 || corners == 0, "refusal {number} with {corners} corners");
    match passed(number) {
        Ok(()) => Ok(Some(corners as usize)),
        Err(Refusal::NoWay) => Ok(None),
        Err(refusal) => Err(refusal),
    }
}

/// What a returned number says: 0 that nothing is refused.
fn passed(number: u32) -> Result<(), Refusal> {
    match number {
        0 => Ok(()),
        refused => {
            Err(Refusal::from_number(refused).expect("the library returns 0 or the number of a refusal"))
        }
    }
}
