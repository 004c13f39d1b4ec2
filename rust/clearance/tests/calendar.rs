//! The compiled drawing by calendar against the independent Rust drawing's, bit for bit and with guard elements around both slices, and against the compiled
//! drawing at the clearance in force given by hand; and every refusal in its order. Each failure names the generator and the seed that make the survey and
//! the calendar again. Tests print how many surveys were drawn, and how often each kind of calendar was met, and fail if these are too few.
//! `CLEARANCE_SMALL` and `CLEARANCE_LARGE` set how many random surveys there are.

mod comparing;
mod how_many;
mod lending;
mod number;
mod tables;

use clearance::Counts;
use comparing::{assert_same_slices, drawn};
use drawing::Drawn;
use how_many::{large, small};
use lending::{compiled, uncompiled};
use number::number;
use surveys::calendars::{self, minute_by_minute, Asked, YEAR_END};
use surveys::lent::{bits, Slices};
use surveys::refusals::{self, CALENDAR, MINUTE, OPEN_AT_BOX};
use surveys::seasons::{self, Known, Several};
use surveys::tally::{Kinds, Tally};
use surveys::{damage, document, generate, Survey};
use tables::{independent, proved};

/// Lengths of lent slices in which a small drawing has room, or lacks it for points, for triangles, for both.
const ROOMS: [[usize; 2]; 4] = [[64, 64], [0, 64], [64, 0], [0, 0]];

/// Draws with both by a calendar into slices of these lengths; result and slices must be the same bits.
fn assert_same(survey: &Survey, calendar: &[u8], minute: u32, room: [usize; 2], what: &str) -> Slices<Drawn> {
    let dated = compiled(room, what, |floats, numbers| {
        clearance::draw_by_calendar(proved(survey), calendar, minute, floats, numbers)
    });
    let expected = uncompiled(room, what, |floats, numbers| {
        drawing::draw_by_calendar(independent(survey), calendar, minute, floats, numbers)
    });
    assert_same_slices(&dated, &expected, what);
    dated
}

/// Draws by the compiled call at a clearance given by hand.
fn by_hand(survey: &Survey, clearance: f32, room: [usize; 2], what: &str) -> Slices<Drawn> {
    compiled(room, what, |floats, numbers| clearance::draw(proved(survey), clearance, floats, numbers))
}

/// A drawing by calendar is that at the clearance in force given by hand, result and slices: into slices that are exactly long enough, an element too
/// short, empty, and longer than needed; and into vectors. Gives back what it counts.
fn assert_drawn(survey: &Survey, calendar: &[u8], minute: u32, clearance: f32, what: &str) -> Drawn {
    let (counts, ..) = by_hand(survey, clearance, [0, 0], what);
    let [points, triangles] = [counts.points, counts.triangles].map(|count| 3 * count as usize);
    let mut rooms = vec![[0, 0], [points, triangles], [points + 4, triangles + 7]];
    if points > 0 {
        rooms.extend([[points - 1, triangles], [points, triangles - 1]]);
    }
    for room in rooms {
        let what = format!("{what}: room for {room:?}");
        let dated = assert_same(survey, calendar, minute, room, &what);
        assert_same_slices(&dated, &by_hand(survey, clearance, room, &what), &format!("{what}, by hand"));
    }
    let dated = clearance::draw_by_calendar_to_vec(proved(survey), calendar, minute).expect(what);
    let expected = clearance::draw_to_vec(proved(survey), clearance).expect(what);
    let [points, expected_points] = [&dated, &expected].map(|mesh| bits(mesh.points.as_flattened()));
    assert!(points == expected_points && dated.triangles == expected.triangles, "{what}: in vectors");
    Drawn { number: 0, ..counts }
}

/// A refusal without counts, ahead of any slice, also into vectors.
fn assert_refused(survey: &Survey, calendar: &[u8], minute: u32, refusal: u32, what: &str) {
    for room in ROOMS {
        let (result, ..) = assert_same(survey, calendar, minute, room, what);
        assert_eq!(result, drawn(refusal, Counts::default()), "{what}: room for {room:?}");
    }
    let in_vectors = clearance::draw_by_calendar_to_vec(proved(survey), calendar, minute);
    assert_eq!(number(in_vectors), refusal, "{what}: in vectors");
}

/// What was seen of many surveys and calendars.
#[derive(Default)]
struct Seen {
    tally: Tally,
    kinds: Kinds,
}

impl Seen {
    /// Draws a lawful survey by a calendar that has its clearance in force, and by one that is refused.
    fn look(&mut self, survey: &Survey, seed: u64, what: &str) {
        let Asked { calendar, minute, kind, .. } = calendars::holding(seed, survey.clearance);
        match refusals::of_drawing(survey) {
            0 => {
                let drawn = assert_drawn(survey, &calendar, minute, survey.clearance, what);
                self.tally.add_drawn(survey, drawn.points as usize);
            }
            OPEN_AT_BOX => {
                assert_refused(survey, &calendar, minute, OPEN_AT_BOX, what);
                self.tally.add_open();
            }
            refusal => panic!("{what}: refusal {refusal}"),
        }
        self.kinds.add(kind);
        let Asked { calendar, minute, due, kind } = calendars::refused(seed, survey.clearance);
        assert_refused(survey, &calendar, minute, due.expect_err(what), what);
        self.kinds.add(kind);
    }

    /// By far most surveys were drawn, and every kind of calendar was met in every run that is not very short.
    fn assert_many(&self, surveys: u64, what: &str) {
        self.tally.assert_most_drawn(what);
        self.kinds.assert_all_met(surveys as usize / 60, what);
    }
}

#[test]
fn what_can_be_said_by_hand() {
    let survey = seasons::survey();
    for known in seasons::known() {
        let Known { name, calendar, minute, due } = &known;
        let what = &format!("{name}, minute {minute}");
        match known.drawing() {
            Ok((points, triangles)) => {
                let counts = Counts { points: points.len() as u32, triangles: triangles.len() as u32 };
                let clearance = due.expect("a clearance in force");
                assert_eq!(
                    assert_drawn(&survey, calendar, *minute, clearance, what),
                    drawn(0, counts),
                    "{what}"
                );
                let mesh =
                    clearance::draw_by_calendar_to_vec(proved(&survey), calendar, *minute).expect(what);
                assert_eq!(bits(mesh.points.as_flattened()), bits(points.as_flattened()), "{what}");
                assert_eq!(mesh.triangles, triangles, "{what}");
            }
            Err(refusal) => assert_refused(&survey, calendar, *minute, refusal, what),
        }
    }
}

#[test]
fn of_several_refusals_the_first_in_order_is_given() {
    for case in seasons::several() {
        let Several { survey, calendar, minute, room, refusal } = &case;
        let (result, ..) = assert_same(survey, calendar, *minute, *room, "several refusals");
        let [points, triangles] = case.counts();
        assert_eq!(result, drawn(*refusal, Counts { points, triangles }), "{survey:?}, {calendar:?}");
    }
}

#[test]
fn small_surveys() {
    let mut seen = Seen::default();
    for seed in 0..small() {
        seen.look(&generate::small_mixed(seed, 8), seed, &format!("small mixed, seed {seed}"));
    }
    seen.assert_many(small(), "small surveys by calendar");
}

#[test]
fn surveys_of_every_size() {
    let mut seen = Seen::default();
    for seed in 0..large() {
        seen.look(&generate::mixed(seed), seed, &format!("mixed, seed {seed}"));
    }
    seen.assert_many(large(), "surveys of every size by calendar");
}

/// Over 10,240 triangles have no room in the scratch.
#[test]
fn more_triangles_than_the_scratch_holds() {
    let survey = generate::interior(2_565);
    let Asked { calendar, minute, .. } = calendars::holding(0, survey.clearance);
    let result = assert_drawn(&survey, &calendar, minute, survey.clearance, "interior, seed 2565");
    assert!(result.triangles > 10_240, "{} triangles", result.triangles);
}

/// Where the clearance is damaged, it is the one in force, and refused after the calendar. All else is refused before it.
#[test]
fn damaged_surveys_touch_nothing() {
    let mut by_calendar = [0; 2];
    let any = (0..small()).map(|seed| (seed, damage::damaged(seed)));
    let one_for = |refusal| (0..small() / 20).map(move |seed| (seed, damage::damaged_for(refusal, seed)));
    for (seed, damage::Damaged { survey, refusal }) in
        any.chain(refusals::ORDER.into_iter().flat_map(one_for))
    {
        let what = &format!("damaged for {refusal}, seed {seed}");
        let Asked { calendar, minute, .. } = calendars::holding(seed, survey.clearance);
        assert_refused(&survey, &calendar, minute, refusal, what);
        let Asked { calendar, minute, due, .. } = calendars::refused(seed, survey.clearance);
        let due = due.expect_err(what);
        assert_refused(&survey, &calendar, minute, if refusal == 8 { due } else { refusal }, what);
        if refusal == 8 {
            by_calendar[usize::from(due == MINUTE)] += 1;
        }
    }
    let [broken, in_none] = by_calendar;
    println!("damaged by calendar: {broken} by 16 and {in_none} by 17 before 8, the others before 16");
    assert!(small() < 1_000 || (broken > small() / 50 && in_none > small() / 50), "{broken}, {in_none}");
}

#[test]
fn corrupted_calendars_are_judged_alike() {
    let survey = seasons::survey();
    let mut met = [0; 18];
    for seed in 0..4 * small() {
        let what = &format!("corrupted, seed {seed}");
        let (calendar, minute) = calendars::corrupted(seed, 0.5);
        let refusal = refusals::of_drawing_by_calendar(&survey, &calendar, minute);
        let (result, ..) = assert_same(&survey, &calendar, minute, [18, 24], what);
        assert_eq!(result.number, refusal, "{what}");
        met[refusal as usize] += 1;
    }
    println!("corrupted calendars: {} drawn, {} by 16, {} by 17, {} by 8", met[0], met[16], met[17], met[8]);
    let many = [0, 16, 17].iter().all(|&refusal| met[refusal] > small() / 20);
    assert!(small() < 1_000 || many, "refusals met: {met:?}");
}

/// The survey is drawn at every clearance from 0 on that is a minute of the year.
#[test]
fn calendars_of_every_length() {
    let survey = document::centre_sounded(1_048_576.0);
    let every_minute = minute_by_minute(YEAR_END, |minute| minute as f32);
    for minute in [0, 1, 1_440, 263_520, 527_038, 527_039] {
        assert_drawn(&survey, &every_minute, minute, minute as f32, &format!("every minute, at {minute}"));
    }
    for minute in [527_040, 527_041, u32::MAX] {
        assert_refused(&survey, &every_minute, minute, MINUTE, &format!("every minute, at {minute}"));
    }
    let longer = |more: &[u8]| [&every_minute[..], more].concat();
    let one_more = minute_by_minute(YEAR_END + 1, |minute| minute as f32);
    let too_long = [longer(&[0]), longer(&every_minute[..12]), longer(&every_minute), one_more];
    for (calendar, minute) in
        too_long.iter().flat_map(|calendar| [0, 527_039, u32::MAX].map(|at| (calendar, at)))
    {
        assert_refused(
            &survey,
            calendar,
            minute,
            CALENDAR,
            &format!("{} bytes, at {minute}", calendar.len()),
        );
    }
}
