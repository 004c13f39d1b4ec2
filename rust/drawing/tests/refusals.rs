//! Damaged surveys, surveys with a wet corner on an outer face, and references beyond the box: each meets the refusal it
//! must, by every call, and no lent slice is touched.

mod answers;
mod tables;

use answers::{ask, plain_answer};
use drawing::{check, draw, draw_to_vec, enquire, volume, Drawn, Edge, Water};
use surveys::lent::lend;
use surveys::plain::Plain;
use surveys::refusals::{self, OPEN_AT_BOX, REFERENCE};
use surveys::{damage, document, generate, references, Survey};
use tables::tables;

/// Lengths of lent slices: enough for a small drawing, too short for points, for triangles, for both.
const ROOMS: [[usize; 2]; 4] = [[64, 64], [0, 64], [64, 0], [0, 0]];

/// Draws into slices of these lengths. A refused drawing must leave every bit of both as it was.
fn drawn(survey: &Survey, [point_room, triangle_room]: [usize; 2], what: &str) -> Drawn {
    let (drawn, ..) = lend(point_room, triangle_room, what, |points, triangles| {
        let drawn = draw(tables(survey), survey.clearance, points, triangles);
        (drawn, drawn.written())
    });
    drawn
}

/// Reckons the space inside, as [`drawn`] draws.
fn reckoned(survey: &Survey, reference: [u32; 3], rooms: [usize; 2], what: &str) -> Water {
    let (water, ..) = lend(rooms[0], rooms[1], what, |points, triangles| {
        let water = volume(tables(survey), survey.clearance, reference, points, triangles);
        (water, water.drawn.written())
    });
    water
}

/// A refusal without counts.
fn refused(number: u32) -> Drawn {
    Drawn { number, points: 0, triangles: 0 }
}

/// A drawing, and the space inside from a reference in the box and one beyond it, are refused alike by a check before 13.
fn assert_not_drawn(survey: &Survey, refusal: u32, rooms: [usize; 2], what: &str) {
    assert_eq!(drawn(survey, rooms, what), refused(refusal), "{what}");
    for reference in [[1_024, 0, 1_024], [0, 1_025, 0]] {
        let expected = Water { drawn: refused(refusal), sixfold: 0 };
        assert_eq!(reckoned(survey, reference, rooms, what), expected, "{what}: from {reference:?}");
    }
}

/// Asks every call about a survey that meets this refusal of the checks before 12.
fn assert_refused(survey: &Survey, refusal: u32, what: &str) {
    assert_not_drawn(survey, refusal, [64, 64], what);
    assert_eq!(check(tables(survey)), refusals::by_itself(refusal), "{what}: by itself");
    let enquiry = enquire(tables(survey), survey.clearance, 0, [0; 3], 1024);
    assert_eq!(enquiry, Err(refusal), "{what}: enquiry");
}

/// Draws a survey with a wet corner on an outer face into slices of several lengths, then makes the other calls, which
/// serve it. Gives back how many of the edges asked about are crossing.
fn assert_open(survey: &Survey, what: &str) -> usize {
    for rooms in ROOMS {
        assert_not_drawn(survey, OPEN_AT_BOX, rooms, what);
    }
    assert_eq!(draw_to_vec(tables(survey), survey.clearance), Err(OPEN_AT_BOX), "{what}: into vectors");
    assert_eq!(check(tables(survey)), 0, "{what}: by itself");
    let plain = Plain::read(survey);
    let few = plain.edges.iter().step_by(1 + plain.edges.len() / 30);
    let answer = |&edge| {
        let answer = ask(survey, edge);
        assert_eq!(answer, plain_answer(&plain, edge), "{what}: {edge:?}");
        answer.is_ok_and(|edge| edge != Edge::Even)
    };
    few.map(answer).filter(|&is_crossing| is_crossing).count()
}

#[test]
fn a_wet_corner_on_an_outer_face_is_refused_for_drawing_alone() {
    let examples = document::checked().into_iter().filter(|example| example.refusal == OPEN_AT_BOX);
    for example in examples {
        assert_open(&example.survey, &example.name);
    }
    let one_wet = generate::named("one wet outside", 0..300, generate::one_wet_outside);
    let crossings: usize = one_wet.map(|(what, survey)| assert_open(&survey, &what)).sum();
    assert!(crossings > 1_000, "{crossings} crossing edges");
}

/// With a clearance that check 8 refuses all corners may be wet, and with a sounding that check 7 refuses this one.
#[test]
fn checks_7_and_8_come_before_12() {
    for face_centre in document::FACE_CENTRES {
        let what = format!("{face_centre:?}");
        let wet = |sounding| document::wet_at(&[0], &[face_centre], sounding);
        assert_refused(&wet(f32::INFINITY), 7, &what);
        assert_refused(&wet(1.0).at(f32::NEG_INFINITY), 8, &what);
        assert_open(&wet(1.0).at(-1_048_576.0), &what);
    }
}

#[test]
fn each_refusal_is_given_where_it_applies() {
    for refusal in refusals::ORDER {
        for seed in 0..200 {
            let damaged = damage::damaged_for(refusal, seed);
            assert_eq!(damaged.refusal, refusal, "seed {seed}");
            assert_refused(&damaged.survey, refusal, &format!("refusal {refusal}, seed {seed}"));
        }
    }
}

#[test]
fn of_several_refusals_the_first_in_order_is_given() {
    for seed in 0..2_000 {
        let damaged = damage::damaged(seed);
        assert_refused(&damaged.survey, damaged.refusal, &format!("seed {seed}"));
    }
}

#[test]
fn corrupted_tables_are_refused_as_the_plain_checks_say() {
    let mut met = [0; 16];
    for seed in 0..20_000 {
        let survey = damage::corrupted(seed);
        let what = format!("seed {seed}");
        let refusal = refusals::of_drawing(&survey);
        met[refusal as usize] += 1;
        match refusal {
            0 => {
                assert_eq!(check(tables(&survey)), 0, "{what}");
                assert!([0, 9, 10].contains(&drawn(&survey, [64, 64], &what).number), "{what}");
            }
            OPEN_AT_BOX => _ = assert_open(&survey, &what),
            _ => assert_refused(&survey, refusal, &what),
        }
    }
    for refusal in [0, 1, 2, 3, 5, 6, 7, 8, 12, 14, 15] {
        assert!(met[refusal] > 20, "refusal {refusal} was met {} times", met[refusal]);
    }
}

/// Whether there is something to draw or not, and whatever is lent: check 13 comes before 9 and 10.
#[test]
fn a_reference_beyond_the_box_is_refused_before_short_slices() {
    let random = generate::named("small interior", 0..20, |seed| generate::small_interior(seed, 4));
    let examples = [("the centre wet", document::centre_wet()), ("all dry", document::level(-1.0))];
    let examples = examples.map(|(name, survey)| (name.to_string(), survey));
    for (what, survey) in examples.into_iter().chain(random) {
        for (reference, rooms) in
            references::beyond_box().into_iter().flat_map(|at| ROOMS.map(|rooms| (at, rooms)))
        {
            let expected = Water { drawn: refused(REFERENCE), sixfold: 0 };
            assert_eq!(reckoned(&survey, reference, rooms, &what), expected, "{what}: from {reference:?}");
        }
    }
}

#[test]
fn short_slices_are_refused_with_both_counts() {
    let mut with_points = 0;
    for seed in 0..500 {
        let survey = generate::small_interior(seed, 4);
        let what = format!("seed {seed}");
        let attempt = |point_room: usize, triangle_room: usize| {
            let rooms = [point_room, triangle_room];
            let water = reckoned(&survey, [1_024, 0, 512], rooms, &what);
            assert!(water.drawn.number == 0 || water.sixfold == 0, "{what}: {water:?}");
            assert_eq!(water.drawn, drawn(&survey, rooms, &what), "{what}");
            water.drawn
        };
        let Drawn { number, points, triangles } = attempt(1 << 12, 1 << 14);
        assert_eq!(number, 0, "{what}");
        let (point_room, triangle_room) = (3 * points as usize, 3 * triangles as usize);
        let counts = |number| Drawn { number, points, triangles };
        assert_eq!(attempt(point_room, triangle_room), counts(0), "{what}");
        if points > 0 {
            with_points += 1;
            assert_eq!(attempt(point_room - 1, triangle_room), counts(9), "{what}");
            assert_eq!(attempt(0, 0), counts(9), "{what}");
            assert_eq!(attempt(point_room, triangle_room - 1), counts(10), "{what}");
        }
    }
    assert!(with_points > 400, "{with_points} surveys have points");
}
