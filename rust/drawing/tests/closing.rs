//! Random surveys are drawn and counted: demand 3, and demand 2 against a second drawing. Every edge is asked about, and steps follow from answers.
//! Each failure names the generator and the seed that make the survey again.

mod answers;
mod plain_drawing;
mod tables;

use answers::{ask, plain_answer};
use drawing::{draw_to_vec, Drawing, Edge, End};
use plain_drawing::{Face, PlainDrawing};
use surveys::closing::{self, Breach};
use surveys::generate::named;
use surveys::lent::bits;
use surveys::plain::{self, Plain};
use surveys::refusals::{self, OPEN_AT_BOX};
use surveys::tally::Tally;
use surveys::{document, generate, Survey};
use tables::tables;

/// The drawing of a survey; none if it is refused by 12, which must be as the plain checks say.
fn drawing(survey: &Survey, what: &str) -> Option<Drawing> {
    let drawn = draw_to_vec(tables(survey), survey.clearance);
    match refusals::of_drawing(survey) {
        0 => Some(drawn.unwrap_or_else(|number| panic!("{what}: refusal {number}, and no check refuses it"))),
        refusal => {
            assert_eq!((drawn, refusal), (Err(OPEN_AT_BOX), OPEN_AT_BOX), "{what}");
            None
        }
    }
}

/// Hands every survey that is drawn on with its drawing and its name, and says how many those were.
fn for_drawn(
    surveys: impl Iterator<Item = (String, Survey)>,
    comparison: &str,
    mut visit: impl FnMut(&Survey, &Drawing, &str),
) {
    let mut tally = Tally::default();
    for (what, survey) in surveys {
        match drawing(&survey, &what) {
            Some(drawing) => {
                tally.add_drawn(&survey, drawing.points.len() / 3);
                visit(&survey, &drawing, &what);
            }
            None => tally.add_open(),
        }
    }
    tally.assert_most_drawn(comparison);
}

fn assert_closes(survey: &Survey, Drawing { points, triangles }: &Drawing, what: &str) {
    assert_eq!(closing::check(survey, points, triangles), Ok(()), "{what}");
}

#[test]
fn random_surveys_close() {
    for_drawn(named("mixed", 0..5_000, generate::mixed), "closing", assert_closes);
}

/// The number of points of the longest fan.
fn longest_loop(triangles: &[u32]) -> usize {
    let triangles: Vec<&[u32]> = triangles.chunks_exact(3).collect();
    let fans = triangles.chunk_by(|before, after| [before[0], before[2]] == after[..2]);
    fans.map(|fan| fan.len() + 2).max().unwrap_or(0)
}

#[test]
fn loops_of_many_hundred_points_close() {
    for (what, survey) in named("long loop", 0..20, generate::long_loop) {
        let drawing = drawing(&survey, &what).expect(&what);
        let points = longest_loop(&drawing.triangles);
        assert!(points > 800, "{what}: {points} points");
        assert_closes(&survey, &drawing, &what);
    }
}

#[test]
fn random_surveys_are_drawn_as_the_plain_drawing_draws_them() {
    let small = named("small mixed", 0..5_000, |seed| generate::small_mixed(seed, 8));
    let large = named("mixed", 0..100, generate::mixed);
    let long = named("long loop", 0..2, generate::long_loop);
    let mut shown = Shown::default();
    let surveys = small.chain(large).chain(long);
    for_drawn(surveys, "against the plain drawing", |survey, drawing, what| {
        let plain = Plain::read(survey);
        let expected = plain_drawing::draw(&plain);
        assert_eq!(bits(&drawing.points), bits(&expected.points), "{what}: points");
        assert_eq!(drawing.triangles, expected.triangles, "{what}: triangles");
        shown.look(&plain, &expected.loops);
    });
    shown.assert_much();
}

/// How many drawings showed what a drawing may stumble over.
#[derive(Debug, Default)]
struct Shown {
    /// A loop of more than three points.
    loops: usize,
    /// One of more than eight.
    long_loops: usize,
    /// A point on a divided edge that is even, so that its other half has a point too.
    twins: usize,
    /// A small face with four odd edges.
    saddles: usize,
}

impl Shown {
    fn look(&mut self, plain: &Plain, loops: &[Vec<usize>]) {
        let longest = loops.iter().map(Vec::len).max().unwrap_or(0);
        self.loops += usize::from(longest > 3);
        self.long_loops += usize::from(longest > 8);
        let points = 0..plain.carriers.len();
        self.twins += usize::from(points.into_iter().any(|point| plain.twin(point).is_some()));
        self.saddles += usize::from(plain_drawing::has_saddle(plain));
    }

    fn assert_much(&self) {
        println!("of the drawings: {self:?}");
        let Shown { loops, long_loops, twins, saddles } = *self;
        assert!(loops > 3_500 && long_loops > 1_500 && twins > 3_000 && saddles > 2_500, "{self:?}");
    }
}

#[test]
fn every_enquiry_is_answered_as_the_plain_edges_say() {
    let any_outside = named("small survey", 0..60, |seed| generate::small_survey(seed, 3));
    let dry_outside = named("small interior", 0..20, |seed| generate::small_interior(seed, 3));
    let mut open = 0;
    for (what, survey) in any_outside.chain(dry_outside) {
        open += usize::from(drawing(&survey, &what).is_none());
        let plain = Plain::read(&survey);
        for place in plain::records(&survey.corners).map(|record| record.place) {
            for (axis, shift) in (0..3).flat_map(|axis| (0..=10).map(move |shift| (axis, shift))) {
                let edge = plain::Edge::new(axis, place, 1 << shift);
                assert_eq!(ask(&survey, edge), plain_answer(&plain, edge), "{what}: {edge:?}");
            }
        }
    }
    assert!(open > 40, "{open} of the surveys are refused for drawing");
}

/// The step in a face with two odd edges by the answers for its four edges: on the way round, from the point with the wet end ahead to the one with the wet end
/// behind. For the leaf above the face the way goes round the other way.
fn step_by_answers(face: &Face, answer: impl Fn(plain::Edge) -> Edge) -> (usize, usize) {
    let ahead = [End::Upper, End::Upper, End::Lower, End::Lower];
    let (mut into_wet, mut out_of_wet) = (None, None);
    for (edge, ahead) in face.edges_round().into_iter().zip(ahead) {
        match answer(edge) {
            Edge::Even => {}
            Edge::Crossing { number, wet_end, .. } if wet_end == ahead => into_wet = Some(number as usize),
            Edge::Crossing { number, .. } => out_of_wet = Some(number as usize),
        }
    }
    let (into_wet, out_of_wet) = into_wet.zip(out_of_wet).expect("two odd edges");
    if face.outward > 0 {
        (into_wet, out_of_wet)
    } else {
        (out_of_wet, into_wet)
    }
}

#[test]
fn the_step_in_a_face_with_two_odd_edges_follows_from_four_answers() {
    let mut met = [[0usize; 2]; 3];
    let mut divided = 0;
    for (what, survey) in named("small survey", 0..60, |seed| generate::small_survey(seed, 3)) {
        let plain = Plain::read(&survey);
        let answer =
            |edge: plain::Edge| ask(&survey, edge).expect("an edge of a small face is an edge of a cell");
        for (face, step) in plain_drawing::single_steps(&plain) {
            assert_eq!(step_by_answers(&face, answer), step, "{what}");
            met[face.axis][usize::from(face.outward > 0)] += 1;
            let odd_and_divided = |&edge: &plain::Edge| plain.is_odd(edge) && plain.is_divided(edge);
            divided += usize::from(face.edges_round().iter().any(odd_and_divided));
        }
    }
    assert!(met.as_flattened().iter().all(|&count| count > 100), "by axis, lower and upper side: {met:?}");
    assert!(divided > 100, "with a divided odd edge: {divided}");
}

/// What the closing check says of the twin survey's drawing after a change to it.
fn breach(change: impl FnOnce(&mut Drawing)) -> Result<(), Breach> {
    let survey = document::twin();
    let mut changed = drawing(&survey, "the twin survey").expect("document 01 draws it");
    change(&mut changed);
    closing::check(&survey, &changed.points, &changed.triangles)
}

#[test]
fn the_closing_check_finds_what_is_wrong() {
    assert_eq!(breach(|_| ()), Ok(()));
    let unbalanced = |found| matches!(found, Err(Breach::Unbalanced { .. }));
    assert!(unbalanced(breach(|drawn| drawn.triangles.truncate(9))), "a triangle is lost");
    assert!(unbalanced(breach(|drawn| drawn.triangles.swap(0, 1))), "a triangle is turned");
    assert!(unbalanced(breach(|drawn| drawn.triangles.extend([0, 1, 2]))), "a triangle too many");
    assert_eq!(breach(|drawn| drawn.triangles.clear()), Err(Breach::Unmet(0)));
    assert_eq!(breach(|drawn| drawn.triangles.push(0)), Err(Breach::BrokenTriangle));
    assert_eq!(breach(|drawn| drawn.triangles[2] = 4), Err(Breach::NoSuchPoint(4)));
    let count = |elements| Err(Breach::PointCount { odd_edges: 4, elements });
    assert_eq!(breach(|drawn| drawn.points.clear()), count(0));
    assert_eq!(breach(|drawn| drawn.points.extend([0.0; 3])), count(15));
    assert_eq!(breach(|drawn| drawn.points[3] = 384.0f32.next_up()), Err(Breach::Misplaced(1)));
    assert_eq!(breach(|drawn| drawn.points[0] = 256.0f32.next_up()), Err(Breach::OffEdge(0)));
    assert_eq!(breach(|drawn| drawn.points[1] = f32::NAN), Err(Breach::OffEdge(0)));
}

/// Drawn all the same, a pool that runs out of the box has an open end there.
#[test]
fn the_closing_check_excepts_no_outer_face() {
    let survey = document::one_corner_wet();
    let PlainDrawing { points, triangles, .. } = plain_drawing::draw(&Plain::read(&survey));
    assert_eq!(triangles, [0, 1, 2]);
    let found = closing::check(&survey, &points, &triangles);
    assert!(matches!(found, Err(Breach::Unbalanced { forth: 1, back: 0, .. })), "{found:?}");
}
