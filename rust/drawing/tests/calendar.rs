//! Drawings by calendar: as can be said by hand, as the drawing at the clearance in force given by hand, and refused in the
//! order of the checks. Each failure names the seed that makes the survey and the calendar again.

mod tables;

use drawing::{draw, draw_by_calendar, Drawn};
use surveys::calendars::{self, Asked};
use surveys::lent::{bits, lend, Slices};
use surveys::refusals::{of_drawing, of_drawing_by_calendar};
use surveys::seasons::{self, Known, Several};
use surveys::tally::{Kinds, Tally};
use surveys::{damage, generate, Survey};
use tables::tables;

/// Draws by a calendar into slices of these lengths. Only what the result counts may be touched.
fn by_calendar(survey: &Survey, calendar: &[u8], minute: u32, room: [usize; 2], what: &str) -> Slices<Drawn> {
    lend(room[0], room[1], what, |points, triangles| {
        let drawn = draw_by_calendar(tables(survey), calendar, minute, points, triangles);
        (drawn, drawn.written())
    })
}

/// Draws at a clearance given by hand, likewise.
fn by_hand(survey: &Survey, clearance: f32, room: [usize; 2], what: &str) -> Slices<Drawn> {
    lend(room[0], room[1], what, |points, triangles| {
        let drawn = draw(tables(survey), clearance, points, triangles);
        (drawn, drawn.written())
    })
}

/// The drawing by calendar is that at this clearance given by hand, result and slices, whatever room there is. Gives back
/// what it is where there is enough.
fn assert_as_by_hand(survey: &Survey, asked: &Asked, clearance: f32, what: &str) -> Drawn {
    let (needed, ..) = by_hand(survey, clearance, [0, 0], what);
    let [points, triangles] = [needed.points, needed.triangles].map(|count| 3 * count as usize);
    let short = [[points.saturating_sub(1), triangles], [points, triangles.saturating_sub(1)], [0, 0]];
    for room in short.into_iter().chain([[points, triangles], [points + 4, triangles + 7]]) {
        let (drawn, floats, numbers) = by_calendar(survey, &asked.calendar, asked.minute, room, what);
        let (expected, expected_floats, expected_numbers) = by_hand(survey, clearance, room, what);
        assert_eq!(drawn, expected, "{what}: room for {room:?}");
        assert!(bits(&floats) == bits(&expected_floats), "{what}: points, room for {room:?}");
        assert_eq!(numbers, expected_numbers, "{what}: triangles, room for {room:?}");
    }
    by_hand(survey, clearance, [points, triangles], what).0
}

/// A refusal without counts, whatever room there is.
fn assert_refused(survey: &Survey, asked: &Asked, number: u32, what: &str) {
    for room in [[64, 64], [0, 64], [64, 0], [0, 0]] {
        let (drawn, ..) = by_calendar(survey, &asked.calendar, asked.minute, room, what);
        assert_eq!(drawn, Drawn { number, points: 0, triangles: 0 }, "{what}: room for {room:?}");
    }
}

#[test]
fn what_can_be_said_by_hand() {
    for known in seasons::known() {
        let Known { name, calendar, minute, .. } = &known;
        let what = &format!("{name}, minute {minute}");
        let (drawn, floats, numbers) = by_calendar(&seasons::survey(), calendar, *minute, [18, 24], what);
        match known.drawing() {
            Ok((points, triangles)) => {
                let counts = [points.len() as u32, triangles.len() as u32];
                assert_eq!((drawn.number, [drawn.points, drawn.triangles]), (0, counts), "{what}");
                assert!(bits(&floats).starts_with(&bits(points.as_flattened())), "{what}: {floats:?}");
                assert!(numbers.starts_with(triangles.as_flattened()), "{what}");
            }
            Err(number) => assert_eq!(drawn, Drawn { number, points: 0, triangles: 0 }, "{what}"),
        }
    }
}

#[test]
fn of_several_refusals_the_first_in_order_is_given() {
    for case in seasons::several() {
        let Several { survey, calendar, minute, room, refusal } = &case;
        let (drawn, ..) = by_calendar(survey, calendar, *minute, *room, "several refusals");
        let [points, triangles] = case.counts();
        assert_eq!(drawn, Drawn { number: *refusal, points, triangles }, "{survey:?}, {calendar:?}");
    }
}

#[test]
fn random_surveys_are_drawn_at_the_clearance_in_force() {
    let (mut tally, mut kinds) = (Tally::default(), Kinds::default());
    for seed in 0..3_000 {
        let what = &format!("small mixed, seed {seed}");
        let survey = generate::small_mixed(seed, 4);
        let holding = calendars::holding(seed, survey.clearance);
        match of_drawing(&survey) {
            0 => {
                let drawn = assert_as_by_hand(&survey, &holding, survey.clearance, what);
                tally.add_drawn(&survey, drawn.points as usize);
            }
            refusal => {
                assert_refused(&survey, &holding, refusal, what);
                tally.add_open();
            }
        }
        let refused = calendars::refused(seed, survey.clearance);
        let number = refused.due.expect_err("a refused calendar");
        assert_refused(&survey, &refused, number, what);
        kinds.add(holding.kind);
        kinds.add(refused.kind);
    }
    tally.assert_most_drawn("by calendar");
    kinds.assert_all_met(60, "calendars");
}

/// Where the clearance is damaged, it is the one in force. Every other damage is found before the calendar is looked at.
#[test]
fn damaged_surveys_are_refused_before_their_calendars_and_clearances_after() {
    let mut calendar_first = 0;
    for seed in 0..2_000 {
        let what = &format!("damaged, seed {seed}");
        let damage::Damaged { survey, refusal } = damage::damaged(seed);
        assert_refused(&survey, &calendars::holding(seed, survey.clearance), refusal, what);
        let refused = calendars::refused(seed, survey.clearance);
        let number = if refusal == 8 { refused.due.expect_err(what) } else { refusal };
        assert_refused(&survey, &refused, number, what);
        calendar_first += usize::from(refusal == 8);
    }
    assert!(calendar_first > 50, "{calendar_first} of 2,000 with a damaged clearance alone");
}

#[test]
fn corrupted_calendars_are_judged_as_the_plain_checks_say() {
    let survey = seasons::survey();
    let mut met = [0; 18];
    for seed in 0..10_000 {
        let (calendar, minute) = calendars::corrupted(seed, 0.5);
        let refusal = of_drawing_by_calendar(&survey, &calendar, minute);
        let (drawn, ..) =
            by_calendar(&survey, &calendar, minute, [18, 24], &format!("corrupted, seed {seed}"));
        assert_eq!(drawn.number, refusal, "corrupted, seed {seed}");
        met[refusal as usize] += 1;
    }
    println!("corrupted calendars: {} drawn, {} by 16, {} by 17", met[0], met[16], met[17]);
    assert!([0, 16, 17].iter().all(|&number| met[number] > 200), "refusals met: {met:?}");
}
