//! Surveys by name: those of document 01, two of ground awash, some with amendments, and basins sounded over octrees of several depths, one of which runs
//! out of the box and one of which has a calendar.

use surveys::calendars::{self, Period, YEAR_END};
use surveys::plain::records;
use surveys::survey::Record;
use surveys::{document, resounded, Survey};

use crate::refine::{self, sounding, Fineness, MOST_SPLITS};
use crate::shapes;

/// A survey to try.
pub struct Example {
    /// Its name on the command line.
    pub name: &'static str,
    /// What it shows.
    pub words: &'static str,
    /// The number of the refusal that its drawing meets; 0 if it is drawn.
    pub refusal: u32,
    /// Makes it.
    pub survey: fn() -> Survey,
    /// Makes the calendar beside it; most have an empty one.
    pub calendar: fn() -> Vec<u8>,
}

/// Basins are sounded as finely as the cell table allows.
const FINENESS: Fineness =
    Fineness { coarsest: 256, finest: 32, tolerance: 0.5, most_splits: MOST_SPLITS, graded: false };

/// The chamber has large flat walls: coarse cells stand beside the fine ones at its edges.
fn lock_chamber() -> Survey {
    refine::survey(shapes::lock_chamber, FINENESS)
}

/// The pool is round everywhere.
fn weir_pool() -> Survey {
    refine::survey(shapes::weir_pool, Fineness { graded: true, ..FINENESS })
}

/// The weir pool with the box laid too far downstream: its upper end is cut off.
fn open_pool() -> Survey {
    let cut_off = |[x, y, z]: [f64; 3]| shapes::weir_pool([x + 300.0, y, z]);
    refine::survey(cut_off, Fineness { graded: true, ..FINENESS })
}

/// The weir pool after a channel was dredged through its crest: of the corners that are wet by this, the dozen that it has changed most were sounded again
/// on day 131. The first of them had been sounded the day before, with the work half done.
fn dredged() -> Survey {
    let pool = weir_pool();
    let dredged = |place: [u16; 3]| sounding(shapes::dredged_pool(place.map(f64::from)));
    let deepened = |corner: &Record| dredged(corner.place) - corner.sounding;
    let is_wetted = |corner: &Record| corner.sounding <= 0.0 && dredged(corner.place) > 0.0;
    let mut corners: Vec<Record> = records(&pool.corners).filter(is_wetted).collect();
    corners.sort_by(|one, other| deepened(other).total_cmp(&deepened(one)));
    corners.truncate(12);
    let half_done = corners[0].sounding + deepened(&corners[0]) / 2.0;
    let the_day_before = Record { sounding: half_done, day: 130, ..corners[0] };
    let resounded = |corner: Record| Record { sounding: dredged(corner.place), day: 131, ..corner };
    pool.amended(corners.into_iter().map(resounded).chain([the_day_before]))
}

/// A year at the weir pool: a season, in which a flood of two weeks asks for more clearance, a stoppage on both sides of it, and winter traffic in the last
/// month.
fn seasons() -> Vec<u8> {
    let midnight = |day: u32| 1_440 * (day - 1);
    let records = [
        (midnight(60), midnight(100), 24.0),
        (midnight(100), midnight(114), 96.0),
        (midnight(114), midnight(305), 24.0),
        (midnight(336), YEAR_END, 48.0),
    ];
    calendars::table(records.map(|(from, until, clearance)| Period { from, until, clearance }))
}

const fn drawn(name: &'static str, words: &'static str, survey: fn() -> Survey) -> Example {
    refused(name, words, 0, survey)
}

const fn refused(name: &'static str, words: &'static str, refusal: u32, survey: fn() -> Survey) -> Example {
    Example { name, words, refusal, survey, calendar: Vec::new }
}

/// All examples.
#[allow(clippy::excessive_precision)] // document 01's own number
pub const EXAMPLES: &[Example] = &[
    drawn("lock-chamber", "a lock chamber with a sill, gate recesses and mitred lower gates", lock_chamber),
    drawn("weir-pool", "a weir pool: a bowl, a drowned crest and a scour hole", weir_pool),
    drawn("hull-room", "the lock chamber at a clearance of 24: where a hull may go", || {
        lock_chamber().at(24.0)
    }),
    drawn("deep-water", "the weir pool at a clearance of 96: bowl and hole by themselves", || {
        weir_pool().at(96.0)
    }),
    drawn("dredged", "the weir pool with a dozen corners sounded again after dredging", dredged),
    Example {
        calendar: seasons,
        ..drawn(
            "seasons",
            "the weir pool with a calendar of its clearances: --calendar DIR/calendar --minute N",
            weir_pool,
        )
    },
    drawn("twin", "document 01's twin survey", document::twin),
    drawn(
        "resounded",
        "the twin survey with its wet corner sounded again: amendments",
        resounded::deepened_twin,
    ),
    drawn("centre", "one split, only the centre wet", document::centre_wet),
    drawn("all-dry", "no corner wet: no points", || document::level(-1.0)),
    drawn(
        "opposite-corners",
        "a face with two opposite wet corners: two steps",
        document::opposite_corners_wet,
    ),
    drawn("quarter", "dry -1 at 0, wet 3 at 256: a point at 64", document::quarter_place),
    drawn("awash", "sounding 0 at clearance 0: dry, no points", || document::awash(0.0, 0.0)),
    drawn("awash-around", "only the centre wet, the rest at the clearance: points at the dry ends", || {
        document::awash_around(1.0, 0.0, 0.0)
    }),
    drawn("greatest-sounding", "only the centre wet, at 1,048,576", || document::centre_sounded(1_048_576.0)),
    drawn("full", "2,049 cell records, the most there may be", document::full),
    drawn("deepest", "a cell of depth 9 is split", || document::chain(10)),
    refused("refused-1", "8,200 bytes of cells", 1, document::too_many_cells),
    refused("refused-3", "nine records, only record 3 split, entry 1", 3, document::entry_behind_itself),
    refused("refused-4", "a cell of depth 10 is split", 4, document::too_deep),
    refused("refused-7", "a sounding that is not a number", 7, || document::sounded(f32::NAN)),
    refused("refused-7-beyond", "a sounding of 1,048,576.125", 7, || document::sounded(1_048_576.125)),
    refused("refused-14", "one byte of amendments", 14, || Survey {
        amendments: vec![0],
        ..document::centre_wet()
    }),
    refused("refused-15", "an amendment at (1,1,1), which is no corner", 15, || {
        document::centre_wet().amended([Record { place: [1; 3], sounding: -1.0, day: 1 }])
    }),
    refused("open-pool", "a weir pool that runs out of the surveyed box", 12, open_pool),
    refused("one-corner", "one leaf, only (0,0,0) wet: open at the box", 12, document::one_corner_wet),
    refused("all-wet", "every corner wet: open at the box", 12, || document::level(1.0)),
];

/// The example of this name.
pub fn find(name: &str) -> Option<&'static Example> {
    EXAMPLES.iter().find(|example| example.name == name)
}
