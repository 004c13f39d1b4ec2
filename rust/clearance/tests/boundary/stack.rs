//! The stack that a call needs: all calls on the largest surveys, in a thread with no more stack than the header says.

use clearance::Refusal;
use surveys::amendments::{self, with_amendments};
use surveys::calendars::{of_records, Asked};
use surveys::random::Random;
use surveys::sized::{self, Kind};
use surveys::survey::Record;
use surveys::{document, plain, Survey};

use crate::tables::proved;

/// The header's promise: a call needs less stack than this, in bytes.
const STACK: usize = 576 * 1_024;

/// As many splits as a cell table holds.
const MOST_SPLITS: usize = 256;

/// Runs in a thread with that much stack, below which an inaccessible page lies. The compiled calls touch every page of their stack in order, so one
/// that needs more meets this page, and the process ends.
fn on_small_stack(calls: impl FnOnce() + Send + 'static) {
    let thread = std::thread::Builder::new().stack_size(STACK).spawn(calls);
    thread.expect("a thread").join().expect("returned");
}

/// Uses more stack than such a thread has left when it starts.
pub fn use_more() {
    on_small_stack(|| _ = std::hint::black_box([1u8; STACK]));
}

/// Surveys of 256 splits: every kind, with a long loop and cells of depth 10 among them; and of many random ones that with the most triangles.
fn largest() -> Vec<Survey> {
    let random = (0..50).map(|seed| sized::survey(Kind::Random, MOST_SPLITS, seed));
    let most_triangles = random
        .max_by_key(|survey| clearance::count(proved(survey), survey.clearance).expect("counted").triangles);
    let kinds = Kind::ALL.map(|kind| sized::survey(kind, MOST_SPLITS, 0));
    kinds.into_iter().chain(most_triangles).chain([document::most_corners()]).collect()
}

/// Makes every call: the check, enquiries about edges of cells from all over the table, the drawing, by hand and by calendar, the volume, and a way from
/// the first corner to the last, which are dry, at a clearance at which all are wet too, for one boat and for 16.
fn make_calls(survey: &Survey) {
    let (tables, clearance) = (proved(survey), survey.clearance);
    clearance::check(tables).expect("checked");
    for (number, cube) in plain::octree(&survey.cells).cubes.iter().enumerate().step_by(20) {
        let (low, length) = (cube.low.map(u32::from), u32::from(cube.size));
        clearance::enquire(tables, clearance, number as u32 % 3, low, length).expect("answered");
    }
    let mesh = clearance::draw_to_vec(tables, clearance).expect("drawn");
    let Asked { calendar, minute, .. } = of_records(1_000, clearance);
    assert_eq!(clearance::draw_by_calendar_to_vec(tables, &calendar, minute), Ok(mesh));
    assert_eq!(clearance::draw_by_calendar_to_vec(tables, &[], minute), Err(Refusal::Minute));
    clearance::volume_to_vec(tables, clearance, [1_024, 0, 512]).expect("reckoned");
    let last = (survey.corners.len() / Record::BYTES) as u32 - 1;
    assert_eq!(clearance::way_to_vec(tables, clearance, 0, last).expect("answered").way, None);
    let through = clearance::way_to_vec(tables, -1_048_576.0, 0, last).expect("answered");
    assert!(through.way.as_ref().is_some_and(|way| way.len() > 6) && !through.steps.contains(&None));
    assert_eq!(clearance::convoy_to_vec(tables, &[-1_048_576.0; 16], 0, last), Ok(through));
    assert_eq!(clearance::convoy_to_vec(tables, &[clearance; 16], 0, last).expect("answered").way, None);
}

#[test]
fn the_largest_surveys_on_a_stack_of_576_kib() {
    let surveys = largest();
    assert!(surveys.iter().all(|survey| survey.cells.len() == 4 * (1 + 8 * MOST_SPLITS)));
    on_small_stack(move || surveys.iter().for_each(make_calls));
}

#[test]
fn the_largest_surveys_with_1_000_amendments_on_a_stack_of_576_kib() {
    let amended = |survey| with_amendments(&mut Random::new(1), survey, amendments::MOST);
    let surveys: Vec<Survey> = largest().iter().map(amended).collect();
    assert!(surveys.iter().all(|survey| survey.amendments.len() == 12_000));
    on_small_stack(move || surveys.iter().for_each(make_calls));
}
