//! The compiled drawing against the independent Rust drawing, bit for bit, with guard elements around both slices and NaNs of many patterns in them
//! beforehand; demand 3 counted on what came back, and points looked for where ground is awash. Each failure names the generator and the seed that make
//! the survey again. Some tests mix surveys that are drawn, by far most, with surveys that are refused for a wet corner on an outer face, and print how
//! many there were of each.
//! `CLEARANCE_SMALL` and `CLEARANCE_LARGE` set how many random surveys there are.

mod comparing;
mod how_many;
mod lending;
mod number;
mod tables;

use clearance::Refusal;
use comparing::assert_same_slices;
use drawing::Drawn;
use how_many::{large, small};
use lending::{compiled, uncompiled};
use number::number;
use surveys::lent::{bits, Slices};
use surveys::plain::Plain;
use surveys::refusals::{self, OPEN_AT_BOX};
use surveys::tally::Tally;
use surveys::{closing, damage, document, generate, Survey};
use tables::{independent, proved};

/// Draws with both drawings into slices of these lengths; result and slices must be the same bits, and no coordinate −0.
fn assert_same(survey: &Survey, points: usize, triangles: usize, what: &str) -> Slices<Drawn> {
    let room = [points, triangles];
    let drawn = compiled(room, what, |floats, numbers| {
        clearance::draw(proved(survey), survey.clearance, floats, numbers)
    });
    let expected = uncompiled(room, what, |floats, numbers| {
        drawing::draw(independent(survey), survey.clearance, floats, numbers)
    });
    assert_same_slices(&drawn, &expected, what);
    assert!(!bits(&drawn.1).contains(&(-0f32).to_bits()), "{what}: a coordinate is -0");
    drawn
}

/// What was seen of many surveys.
#[derive(Default)]
struct Seen {
    tally: Tally,
    /// Points that lie where ground is awash.
    awash: usize,
}

impl Seen {
    /// Makes every drawing of a survey that must be drawn, or refused by 12.
    fn look(&mut self, survey: &Survey, what: &str) {
        match refusals::of_drawing(survey) {
            0 => {
                let (points, awash) = assert_drawn(survey, what);
                self.tally.add_drawn(survey, points);
                self.awash += awash;
            }
            OPEN_AT_BOX => {
                assert_open(survey, what);
                self.tally.add_open();
            }
            refusal => panic!("{what}: refusal {refusal}"),
        }
    }

    /// By far most surveys were drawn, and points where ground is awash came up in every run that is not very short.
    fn assert_many(&self, surveys: u64, what: &str) {
        self.tally.assert_most_drawn(what);
        let awash = self.awash;
        assert!(
            surveys < 1_000 || awash as u64 > 5 * surveys,
            "{what}: {awash} points where ground is awash"
        );
    }
}

/// A survey with a wet corner on an outer face: refused with no counts, ahead of any slice, also by counting and into vectors.
fn assert_open(survey: &Survey, what: &str) {
    for (points, triangles) in [(0, 0), (0, 64), (64, 0), (64, 64)] {
        let (refused, ..) = assert_same(survey, points, triangles, what);
        assert_eq!(refused, Drawn { number: OPEN_AT_BOX, points: 0, triangles: 0 }, "{what}");
    }
    let counted = clearance::count(proved(survey), survey.clearance);
    assert_eq!(counted, Err(Refusal::OpenAtBox), "{what}: counted");
    let in_vectors = clearance::draw_to_vec(proved(survey), survey.clearance);
    assert_eq!(in_vectors, Err(Refusal::OpenAtBox), "{what}: in vectors");
    assert_eq!(clearance::check(proved(survey)), Ok(()), "{what}: by itself");
    assert_eq!(drawing::check(independent(survey)), 0, "{what}: by itself");
}

/// Draws into slices that are exactly long enough, one element too short, empty, and longer than needed. Gives back how many points there are, and
/// how many of them lie where ground is awash.
fn assert_drawn(survey: &Survey, what: &str) -> (usize, usize) {
    let (counts, ..) = assert_same(survey, 0, 0, what);
    let (points, triangles) = (3 * counts.points as usize, 3 * counts.triangles as usize);
    let (result, floats, numbers) = assert_same(survey, points, triangles, what);
    assert_eq!(result.number, 0, "{what}");
    assert_eq!(closing::check(survey, &floats, &numbers), Ok(()), "{what}: closing");
    assert_vectors(survey, &floats, &numbers, what);
    if points > 0 {
        assert_eq!(assert_same(survey, points - 1, triangles, what).0.number, 9, "{what}");
        assert_eq!(assert_same(survey, points, triangles - 1, what).0.number, 10, "{what}");
    }
    assert_same(survey, points + 4, triangles + 7, what);
    (counts.points as usize, assert_awash(survey, &floats, what))
}

/// Where the dry end of its edge is awash, a point lies at that end; gives back how many do.
fn assert_awash(survey: &Survey, floats: &[f32], what: &str) -> usize {
    let plain = Plain::read(survey);
    let mut awash = 0;
    for (&edge, place) in plain.carriers.iter().zip(floats.chunks_exact(3)) {
        let [dry_end, _] = plain.dry_and_wet(edge);
        if plain.is_awash(dry_end) {
            assert_eq!(bits(place), bits(&dry_end.map(f32::from)), "{what}: not at the end that is awash");
            awash += 1;
        }
    }
    awash
}

/// Counting, and drawing into vectors, give what was drawn into slices.
fn assert_vectors(survey: &Survey, floats: &[f32], numbers: &[u32], what: &str) {
    let counts = clearance::count(proved(survey), survey.clearance).expect(what);
    assert_eq!(counts.point_elements(), floats.len(), "{what}");
    assert_eq!(counts.triangle_elements(), numbers.len(), "{what}");
    let mesh = clearance::draw_to_vec(proved(survey), survey.clearance).expect(what);
    assert!(bits(mesh.points.as_flattened()) == bits(floats), "{what}: points in a vector");
    assert_eq!(mesh.triangles.concat(), numbers, "{what}: triangles in a vector");
}

#[test]
fn the_surveys_of_the_document() {
    for example in document::drawn() {
        let (points, triangles) = (3 * example.points.len(), 3 * example.triangles.len());
        let (result, floats, numbers) = assert_same(&example.survey, points, triangles, &example.name);
        assert_eq!(result.number, 0, "{}", example.name);
        assert_eq!(bits(&floats), bits(&example.points.concat()), "{}", example.name);
        assert_eq!(numbers, example.triangles.concat(), "{}", example.name);
    }
    for example in document::checked() {
        let (result, ..) = assert_same(&example.survey, 64, 64, &example.name);
        match example.refusal {
            0 => assert_eq!(result.number, 0, "{}", example.name),
            OPEN_AT_BOX => assert_open(&example.survey, &example.name),
            refusal => assert_eq!(result.number, refusal, "{}", example.name),
        }
    }
}

#[test]
fn small_surveys() {
    let mut seen = Seen::default();
    for seed in 0..small() {
        seen.look(&generate::small_mixed(seed, 8), &format!("small mixed, seed {seed}"));
    }
    seen.assert_many(small(), "small surveys");
}

#[test]
fn surveys_of_every_size() {
    let mut seen = Seen::default();
    for seed in 0..large() {
        seen.look(&generate::mixed(seed), &format!("mixed, seed {seed}"));
    }
    seen.assert_many(large(), "surveys of every size");
}

/// A drawing that leaves out one face of the box, or one end of an axis, draws one of these.
#[test]
fn one_wet_corner_on_any_face_is_refused() {
    for seed in 0..300 {
        assert_open(&generate::one_wet_outside(seed), &format!("one wet outside, seed {seed}"));
    }
}

/// The surface as a whole turns counter-clockwise seen from the dry side, so that the wet space counts as positive. It may be nothing, where every wet
/// sounding is so little above the clearance that each point is rounded to its wet end. The seeds are other ones than those of every size.
#[test]
fn the_wet_space_counts_as_positive() {
    let mut spaces = 0;
    for seed in large()..2 * large() {
        let survey = generate::interior(seed);
        assert_drawn(&survey, &format!("interior, seed {seed}"));
        let (_, water) = clearance::volume_to_vec(proved(&survey), survey.clearance, [0; 3]).expect("drawn");
        assert!(water.sixfold >= 0, "interior, seed {seed}: {}", water.sixfold);
        spaces += u64::from(water.sixfold > 0);
    }
    assert!(spaces > large() / 4, "{spaces} with space inside");
}

#[test]
fn loops_of_many_hundred_points() {
    for seed in 0..10 {
        assert_drawn(&generate::long_loop(seed), &format!("long loop, seed {seed}"));
    }
}

/// Over 10,240 triangles have no room in the scratch, and their leaves are drawn a second time.
#[test]
fn more_triangles_than_the_scratch_holds() {
    let survey = generate::interior(2_565);
    let what = "interior, seed 2565";
    let (counts, ..) = assert_same(&survey, 0, 0, what);
    assert!(counts.triangles > 10_240, "{} triangles", counts.triangles);
    assert_drawn(&survey, what);
}

#[test]
fn damaged_surveys_touch_nothing() {
    for seed in 0..small() {
        let damage::Damaged { survey, refusal } = damage::damaged(seed);
        let (refused, ..) = assert_same(&survey, 40, 40, &format!("damaged, seed {seed}"));
        assert_eq!(refused.number, refusal, "damaged, seed {seed}");
        let in_vectors = number(clearance::draw_to_vec(proved(&survey), survey.clearance));
        assert_eq!(in_vectors, refusal, "damaged, seed {seed}: in vectors");
    }
}

#[test]
fn corrupted_surveys_are_drawn_or_refused_alike() {
    let [mut lawful, mut open] = [0; 2];
    for seed in 0..small() {
        let survey = damage::corrupted(seed);
        let (result, ..) = assert_same(&survey, 40, 40, &format!("corrupted, seed {seed}"));
        let refusal = refusals::of_drawing(&survey);
        let due: &[u32] = if refusal == 0 { &[0, 9, 10] } else { &[refusal] };
        assert!(due.contains(&result.number), "corrupted, seed {seed}: {} is not due", result.number);
        lawful += u64::from(refusal == 0);
        open += u64::from(refusal == OPEN_AT_BOX);
    }
    println!("corrupted: {lawful} drawn or in need of longer slices, {open} refused by 12");
    let many = lawful > small() / 50 && open > small() / 100;
    assert!(small() < 1_000 || many, "{lawful} drawn or in need of longer slices, {open} refused by 12");
}
