//! The compiled enquiry against the independent Rust drawing's, bit for bit: on every edge and on many that no cell has, and on places of random
//! soundings. Each failure names the seed that makes the survey again.

mod number;
mod tables;

use clearance::{Edge, End, Refusal};
use number::number;
use surveys::amendments::some_hold;
use surveys::plain::{self, Plain};
use surveys::refusals::{self, OPEN_AT_BOX};
use surveys::survey::on_outer_face;
use surveys::{damage, document, generate, Survey};
use tables::{independent, proved};

/// The answer as numbers, floats by their bits: the number returned, and for a crossing 1 + the point's number, its place and the wet end (1 lower, 2 upper).
type Numbers = [u32; 6];

fn numbers(answer: Result<Edge, Refusal>) -> Numbers {
    match answer {
        Err(_) => refused(number(answer)),
        Ok(Edge::Even) => [0; 6],
        Ok(Edge::Crossing { number, place, wet_end }) => crossing(number, place, wet_end == End::Upper),
    }
}

/// The same of the independent drawing's answer.
fn expected_numbers(answer: Result<drawing::Edge, u32>) -> Numbers {
    match answer {
        Err(number) => refused(number),
        Ok(drawing::Edge::Even) => [0; 6],
        Ok(drawing::Edge::Crossing { number, place, wet_end }) => {
            crossing(number, place, wet_end == drawing::End::Upper)
        }
    }
}

fn refused(number: u32) -> Numbers {
    [number, 0, 0, 0, 0, 0]
}

fn crossing(number: u32, [x, y, z]: [f32; 3], upper_wet: bool) -> Numbers {
    [0, 1 + number, x.to_bits(), y.to_bits(), z.to_bits(), 1 + u32::from(upper_wet)]
}

/// Asks both; the answers must be the same bits, and no coordinate −0.
fn assert_same(survey: &Survey, axis: u32, lower_end: [u32; 3], length: u32, what: &str) -> Numbers {
    let clearance = survey.clearance;
    let answer = numbers(clearance::enquire(proved(survey), clearance, axis, lower_end, length));
    let expected = drawing::enquire(independent(survey), clearance, axis, lower_end, length);
    let expected = expected_numbers(expected);
    assert_eq!(answer, expected, "{what}: axis {axis}, lower end {lower_end:?}, length {length}");
    assert!(!answer[2..5].contains(&(-0f32).to_bits()), "{what}: axis {axis}, lower end {lower_end:?}: -0");
    answer
}

/// The places of the corner records.
fn places(survey: &Survey) -> impl Iterator<Item = [u32; 3]> + '_ {
    plain::records(&survey.corners).map(|record| record.place.map(u32::from))
}

#[test]
fn the_quarter_place() {
    let survey = document::quarter_place();
    let answer = assert_same(&survey, 0, [0, 512, 512], 256, "dry -1 at 0, wet 3 at 256");
    assert_eq!(answer, crossing(0, [64.0, 512.0, 512.0], true));
    assert_eq!(assert_same(&survey, 3, [0, 512, 512], 256, "axis 3")[0], 11);
    let at_box = document::quarter_place_at_box();
    assert_not_drawn(&at_box, "on an edge of the box");
    let answer = assert_same(&at_box, 0, [0, 0, 0], 256, "on an edge of the box");
    assert_eq!(answer, crossing(0, [64.0, 0.0, 0.0], true));
}

/// Both drawings refuse a survey with a wet corner on an outer face.
fn assert_not_drawn(survey: &Survey, what: &str) {
    let drawn = clearance::draw_to_vec(proved(survey), survey.clearance);
    assert_eq!(number(drawn), OPEN_AT_BOX, "{what}");
    let drawn = drawing::draw_to_vec(independent(survey), survey.clearance);
    assert_eq!(drawn, Err(OPEN_AT_BOX), "{what}");
}

/// A survey that is not drawn for its one wet corner on an outer face serves the enquiry as any other: the edges at that corner, and many more.
#[test]
fn surveys_that_are_open_at_the_box() {
    let [mut crossings, mut amended] = [0; 2];
    for seed in 0..200 {
        let survey = generate::one_wet_outside(seed);
        amended += usize::from(some_hold(&survey));
        let what = format!("one wet outside, seed {seed}");
        assert_not_drawn(&survey, &what);
        let plain = Plain::read(&survey);
        let is_wet_outside = |end| on_outer_face(end) && plain.is_wet(end);
        let at_wet = |edge: &&plain::Edge| is_wet_outside(edge.low()) || is_wet_outside(edge.high());
        let others = plain.edges.iter().step_by(1 + plain.edges.len() / 20);
        for edge in plain.edges.iter().filter(at_wet).chain(others) {
            let (low, length) = (edge.low().map(u32::from), u32::from(edge.length));
            let [number, is_crossing, ..] = assert_same(&survey, edge.axis as u32, low, length, &what);
            assert_eq!(number, 0, "{what}: {edge:?}");
            crossings += usize::from(is_crossing != 0);
        }
    }
    assert!(crossings > 1_000 && amended > 60, "{crossings} crossing edges, {amended} surveys amended");
}

#[test]
fn ground_awash_is_dry() {
    for (sounding, clearance) in document::ZEROS {
        let what = format!("sounding {sounding:?} at clearance {clearance:?}");
        let awash = document::awash(sounding, clearance);
        let around = document::awash_around(1.0, sounding, clearance);
        for axis in 0..3 {
            assert_eq!(assert_same(&awash, axis, [0, 0, 0], 1_024, &what), [0; 6], "{what}");
            let mut low = [512; 3];
            low[axis as usize] = 0;
            let at_dry_end = crossing(2 * axis, low.map(|at| at as f32), true);
            assert_eq!(assert_same(&around, axis, low, 512, &what), at_dry_end, "{what}");
        }
    }
}

#[test]
fn every_edge_and_many_that_no_cell_has() {
    let mut met = [0usize; 4];
    let mut divided = [0usize; 2];
    let [mut open, mut amended] = [0; 2];
    let any_outside = generate::named("small survey", 0..25, |seed| generate::small_survey(seed, 6));
    let dry_outside = generate::named("small interior", 0..10, |seed| generate::small_interior(seed, 6));
    for (what, survey) in any_outside.chain(dry_outside) {
        open += usize::from(refusals::of_drawing(&survey) == OPEN_AT_BOX);
        amended += usize::from(some_hold(&survey));
        let plain = Plain::read(&survey);
        for place in plain::records(&survey.corners).map(|record| record.place) {
            for (axis, level) in (0..3).flat_map(|axis| (0..=10).map(move |level| (axis, level))) {
                match assert_same(&survey, axis, place.map(u32::from), 1 << level, &what) {
                    [11, ..] => met[0] += 1,
                    [0, 0, ..] => met[1] += 1,
                    [.., wet_end] => {
                        let edge = plain::Edge::new(axis as usize, place, 1 << level);
                        met[1 + wet_end as usize] += 1;
                        divided[wet_end as usize - 1] += usize::from(plain.is_divided(edge));
                    }
                }
            }
        }
    }
    assert!(met.iter().all(|&count| count > 300), "no edge, even, crossing with either wet end: {met:?}");
    assert!((20..=25).contains(&open), "{open} of 35 surveys are refused for drawing");
    assert!(amended > 10, "{amended} of 35 surveys are amended");
    assert!(
        divided.iter().all(|&count| count > 30),
        "divided and crossing, with either wet end: {divided:?}"
    );
}

#[test]
fn large_surveys() {
    let any_outside = generate::named("survey", 0..30, generate::survey);
    let dry_outside = generate::named("interior", 30..60, generate::interior);
    for (what, survey) in any_outside.chain(dry_outside) {
        for (n, place) in places(&survey).enumerate().step_by(7) {
            assert_same(&survey, (n % 3) as u32, place, 1 << (n % 11), &what);
        }
    }
}

#[test]
fn any_numbers_are_answered() {
    let survey = generate::small_survey(1, 4);
    let odd_numbers =
        [0, 1, 3, 255, 512, 1_000, 1_023, 1_024, 1_025, 2_048, 65_535, 65_536, 65_537, 1 << 31, u32::MAX];
    for a in odd_numbers {
        for b in odd_numbers {
            for axis in [0, 1, 2, 3, u32::MAX] {
                assert_same(&survey, axis, [a, b, 0], 1_024, "extreme numbers");
                assert_same(&survey, axis, [0, a, b], 512, "extreme numbers");
                assert_same(&survey, axis, [b, 0, 0], a, "extreme numbers");
            }
        }
    }
}

#[test]
fn damaged_surveys_are_refused_alike() {
    for seed in 0..5_000 {
        let survey = damage::damaged(seed).survey;
        assert_same(
            &survey,
            (seed % 4) as u32,
            [0, 0, 0],
            1 << (seed % 12),
            &format!("damaged, seed {seed}"),
        );
        assert_same(&damage::corrupted(seed), 0, [0, 0, 0], 1_024, &format!("corrupted, seed {seed}"));
    }
}

/// Places of random pairs of soundings, on one leaf: they agree, lie on their edges, and at the dry end where that is awash. `CLEARANCE_PAIRS` sets how
/// many.
#[test]
fn places_of_random_soundings() {
    let pairs = std::env::var("CLEARANCE_PAIRS").map_or(100_000, |text| text.parse().expect("a number"));
    let mut awash = [0; 2];
    for seed in 0..pairs {
        let survey = generate::small_survey(seed, 0);
        let plain = Plain::read(&survey);
        for axis in 0..3 {
            let [_, point, place @ .., wet_end] =
                assert_same(&survey, axis, [0, 0, 0], 1_024, &format!("one leaf, seed {seed}"));
            if point == 0 {
                continue;
            }
            let moving = f32::from_bits(place[axis as usize]);
            assert!((0.0..=1024.0).contains(&moving), "seed {seed}: {moving}");
            let [dry_end, _] = plain.dry_and_wet(plain::Edge::new(axis as usize, [0; 3], 1_024));
            if plain.is_awash(dry_end) {
                assert_eq!(place, dry_end.map(|at| f32::from(at).to_bits()), "seed {seed}");
                awash[wet_end as usize - 1] += 1;
            }
        }
    }
    let many = awash.iter().all(|&count| count > pairs / 20);
    assert!(pairs < 1_000 || many, "awash, with either wet end: {awash:?}");
}
