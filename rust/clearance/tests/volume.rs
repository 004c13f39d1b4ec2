//! The compiled volume against the independent Rust drawing's, bit for bit and with guard elements around both slices, from many reference points; against
//! upright prisms under the compiled drawing; and every refusal in its order. Each failure names the generator and the seed that make the survey and the
//! reference points again. Some tests mix surveys that are drawn, by far most, with surveys that are refused for a wet corner on an outer face, and print
//! how many there were of each. `CLEARANCE_SMALL` and `CLEARANCE_LARGE` set how many random surveys there are.

mod comparing;
mod how_many;
mod number;
mod tables;

use clearance::{Counts, Mesh};
use comparing::{assert_same_slices, drawn, refused};
use drawing::{Drawn, Water};
use how_many::{large, small};
use number::number;
use surveys::lent::{bits, lend, Slices};
use surveys::plain::Plain;
use surveys::refusals::{self, OPEN_AT_BOX, REFERENCE};
use surveys::sized::{self, Kind};
use surveys::survey::Record;
use surveys::tally::Tally;
use surveys::{damage, document, generate, references, volumes, water, Survey};
use tables::{independent, proved};

/// Lengths of lent slices in which a small drawing has room, or lacks it for points, for triangles, for both.
const ROOMS: [[usize; 2]; 4] = [[64, 64], [0, 64], [64, 0], [0, 0]];

/// Reckons with both into slices of these lengths; result and slices must be the same bits.
fn assert_same(survey: &Survey, reference: [u32; 3], room: [usize; 2], what: &str) -> Slices<Water> {
    let clearance = survey.clearance;
    let what = &format!("{what}, from {reference:?}");
    let reckoned = lend(room[0], room[1], what, |floats, numbers| {
        let result = clearance::volume(proved(survey), clearance, reference, floats, numbers);
        let result = result.map_or_else(without_volume, with_volume);
        (result, result.drawn.written())
    });
    let expected = lend(room[0], room[1], what, |floats, numbers| {
        let expected = drawing::volume(independent(survey), clearance, reference, floats, numbers);
        (expected, expected.drawn.written())
    });
    assert_same_slices(&reckoned, &expected, what);
    reckoned
}

/// A result as the independent drawing returns it.
fn with_volume(clearance::Water { counts, sixfold }: clearance::Water) -> Water {
    Water { drawn: drawn(0, counts), sixfold: sixfold.into() }
}

/// A refusal likewise. That its sum is 0 the library's Rust side asserts for every call, and tests/c/calls.c shows.
fn without_volume(refusal: clearance::Refused) -> Water {
    Water { drawn: refused(refusal), sixfold: 0 }
}

/// A survey that a check before 13 refuses: without counts, ahead of any reference and any slice, also into vectors.
fn assert_not_drawn(survey: &Survey, refusal: u32, what: &str) {
    for reference in [[1_024, 0, 1_024], [0, 0, 1_025]] {
        for room in ROOMS {
            let (result, ..) = assert_same(survey, reference, room, what);
            assert_eq!(result.drawn, drawn(refusal, Counts::default()), "{what}, from {reference:?}");
        }
        let in_vectors = clearance::volume_to_vec(proved(survey), survey.clearance, reference);
        assert_eq!(number(in_vectors), refusal, "{what}, from {reference:?}: in vectors");
    }
}

/// A survey that is drawn: from every reference the same sum, that of the prisms under its drawing, and the slices of its drawing; into slices that are
/// longer than needed or too short; and from references beyond the box. Gives back the counts and the sum.
fn assert_reckoned(survey: &Survey, seed: u64, what: &str) -> Water {
    let mesh = clearance::draw_to_vec(proved(survey), survey.clearance).expect(what);
    let expected = water_of(&mesh);
    let needed = expected.drawn.written();
    let references = references::of_box(seed);
    for &reference in &references {
        let (result, floats, numbers) = assert_same(survey, reference, needed, what);
        assert_eq!(result, expected, "{what}, from {reference:?}: by prisms");
        assert!(bits(&floats) == bits(mesh.points.as_flattened()), "{what}: points of the drawing");
        assert_eq!(numbers, mesh.triangles.as_flattened(), "{what}: triangles of the drawing");
    }
    let reference = references[seed as usize % references.len()];
    let in_vectors = clearance::volume_to_vec(proved(survey), survey.clearance, reference).expect(what);
    assert_eq!((in_vectors.0, with_volume(in_vectors.1)), (mesh, expected), "{what}: in vectors");
    let longer = [needed[0] + 4, needed[1] + 7];
    assert_eq!(assert_same(survey, reference, longer, what).0, expected, "{what}: longer slices");
    assert_short_slices(survey, reference, expected.drawn, what);
    assert_beyond(survey, seed, needed, what);
    expected
}

/// What is due for a drawing, the sum by prisms.
fn water_of(mesh: &Mesh) -> Water {
    let counts = Counts { points: mesh.points.len() as u32, triangles: mesh.triangles.len() as u32 };
    let sixfold = water::sixfold(mesh.points.as_flattened(), mesh.triangles.as_flattened());
    Water { drawn: drawn(0, counts), sixfold }
}

/// Slices that are an element too short, or empty, are refused with the counts of the drawing.
fn assert_short_slices(survey: &Survey, reference: [u32; 3], drawn: Drawn, what: &str) {
    let [points, triangles] = drawn.written();
    if points == 0 {
        return;
    }
    let short = [(9, [points - 1, triangles]), (10, [points, triangles - 1]), (9, [0, 0])];
    for (number, room) in short {
        let (result, ..) = assert_same(survey, reference, room, what);
        assert_eq!(result.drawn, Drawn { number, ..drawn }, "{what}: room for {room:?}");
    }
}

/// From some references beyond the box a survey that is drawn is refused without counts, ahead of any slice.
fn assert_beyond(survey: &Survey, seed: u64, [points, triangles]: [usize; 2], what: &str) {
    let beyond = references::beyond_box();
    let some = (seed as usize..).step_by(5).take(4).map(|at| beyond[at % beyond.len()]);
    let rooms = [[points, triangles], [0, triangles], [points, 0], [0, 0]];
    for (reference, room) in some.zip(rooms) {
        let (result, ..) = assert_same(survey, reference, room, what);
        assert_eq!(result.drawn, drawn(REFERENCE, Counts::default()), "{what}, from {reference:?}");
    }
}

/// What was seen of many surveys.
#[derive(Default)]
struct Seen {
    tally: Tally,
    /// Surveys with space inside.
    spaces: u64,
}

impl Seen {
    /// Reckons the space of a survey that must be drawn, or refused by 12.
    fn look(&mut self, survey: &Survey, seed: u64, what: &str) {
        match refusals::of_drawing(survey) {
            0 => {
                let Water { drawn, sixfold } = assert_reckoned(survey, seed, what);
                // Not proved: seen of all surveys tried.
                assert!(sixfold >= 0, "{what}: {sixfold}");
                self.tally.add_drawn(survey, drawn.points as usize);
                self.spaces += u64::from(sixfold > 0);
            }
            OPEN_AT_BOX => {
                assert_not_drawn(survey, OPEN_AT_BOX, what);
                self.tally.add_open();
            }
            refusal => panic!("{what}: refusal {refusal}"),
        }
    }

    /// By far most surveys were drawn, and most have space inside.
    fn assert_many(&self, surveys: u64, what: &str) {
        self.tally.assert_most_drawn(what);
        println!("{what}: {} with space inside", self.spaces);
        assert!(surveys < 100 || 2 * self.spaces > surveys, "{what}: {} with space inside", self.spaces);
    }
}

#[test]
fn the_space_that_can_be_said_by_hand() {
    for (seed, volumes::Held { name, survey, sixfold }) in (0..).zip(volumes::held()) {
        assert_eq!(assert_reckoned(&survey, seed, name).sixfold, i128::from(sixfold), "{name}");
    }
}

#[test]
fn the_surveys_of_the_document() {
    for (seed, example) in (0..).zip(document::drawn()) {
        assert_reckoned(&example.survey, seed, &example.name);
    }
    for (seed, example) in (0..).zip(document::checked()) {
        match example.refusal {
            0 => _ = assert_reckoned(&example.survey, seed, &example.name),
            refusal => assert_not_drawn(&example.survey, refusal, &example.name),
        }
    }
}

#[test]
fn small_surveys() {
    let mut seen = Seen::default();
    for seed in 0..small() {
        seen.look(&generate::small_mixed(seed, 8), seed, &format!("small mixed, seed {seed}"));
    }
    seen.assert_many(small(), "volumes of small surveys");
}

#[test]
fn surveys_of_every_size() {
    let mut seen = Seen::default();
    for seed in 0..large() {
        seen.look(&generate::mixed(seed), seed, &format!("mixed, seed {seed}"));
    }
    seen.assert_many(large(), "volumes of surveys of every size");
}

/// Surveys of every shape with the centre wet, by more than rounding takes away.
#[test]
fn around_a_wet_centre_the_sum_is_positive() {
    for (kind, splits) in Kind::ALL.into_iter().flat_map(|kind| [1, 8, 64, 256].map(|splits| (kind, splits)))
    {
        let survey = sized::survey(kind, splits, 0);
        let what = format!("{kind:?} of {splits} splits, seed 0");
        assert!(Plain::read(&survey).is_wet([512; 3]), "{what}");
        let Water { sixfold, .. } = assert_reckoned(&survey, splits as u64, &what);
        assert!(sixfold > 0, "{what}: {sixfold}");
    }
}

#[test]
fn loops_of_many_hundred_points() {
    for seed in 0..5 {
        assert_reckoned(&generate::long_loop(seed), seed, &format!("long loop, seed {seed}"));
    }
}

/// Over 10,240 triangles have no room in the scratch.
#[test]
fn more_triangles_than_the_scratch_holds() {
    let Water { drawn, .. } = assert_reckoned(&generate::interior(2_565), 0, "interior, seed 2565");
    assert!(drawn.triangles > 10_240, "{} triangles", drawn.triangles);
}

/// Every reference beyond the box, where there is something to draw and where there is nothing.
#[test]
fn references_beyond_the_box_are_refused() {
    for (name, survey) in [("the centre wet", document::centre_wet()), ("all dry", document::level(-1.0))] {
        for reference in references::beyond_box() {
            for room in ROOMS {
                let (result, ..) = assert_same(&survey, reference, room, name);
                assert_eq!(result.drawn, drawn(REFERENCE, Counts::default()), "{name}, from {reference:?}");
            }
            let in_vectors = clearance::volume_to_vec(proved(&survey), survey.clearance, reference);
            assert_eq!(number(in_vectors), REFERENCE, "{name}, from {reference:?}: in vectors");
        }
    }
}

/// Each refusal with those that stand after it: 14, 15, 7, 8, 12, 13, 9, 10. The drawing has 6 points and 8 triangles.
#[test]
fn of_several_refusals_the_first_in_order_is_given() {
    let beyond = [0, 1_025, 0];
    let wet = document::centre_wet;
    let open = || document::wet_at(&[0], &[[512, 512, 0]], 1.0);
    let unsounded = || document::wet_at(&[0], &[[512, 512, 0]], f32::NAN);
    let stray = |survey: Survey| survey.amended([Record { place: [1; 3], sounding: f32::NAN, day: 0 }]);
    let part = |survey: Survey| Survey { amendments: stray(open()).amendments[..11].to_vec(), ..survey };
    let cases: [(u32, Survey, [u32; 3], [usize; 2]); 10] = [
        (14, part(unsounded().at(f32::INFINITY)), beyond, [0, 0]),
        (15, stray(unsounded().at(f32::INFINITY)), beyond, [0, 0]),
        (7, unsounded().at(f32::INFINITY), beyond, [0, 0]),
        (8, open().at(f32::NEG_INFINITY), beyond, [0, 0]),
        (8, wet().at(1_048_577.0), beyond, [18, 24]),
        (12, open(), beyond, [0, 0]),
        (13, wet(), beyond, [0, 0]),
        (13, wet(), beyond, [18, 0]),
        (9, wet(), [1_024; 3], [17, 23]),
        (10, wet(), [1_024; 3], [18, 23]),
    ];
    for (refusal, survey, reference, room) in cases {
        let (result, ..) = assert_same(&survey, reference, room, "several refusals");
        assert_eq!(result.drawn.number, refusal, "{reference:?}, {room:?}");
        let counts = [result.drawn.points, result.drawn.triangles];
        assert_eq!(counts, if refusal == 9 || refusal == 10 { [6, 8] } else { [0, 0] }, "refusal {refusal}");
    }
}

#[test]
fn damaged_surveys_touch_nothing() {
    for seed in 0..small() {
        let damage::Damaged { survey, refusal } = damage::damaged(seed);
        assert_not_drawn(&survey, refusal, &format!("damaged, seed {seed}"));
    }
}

#[test]
fn corrupted_surveys_are_drawn_or_refused_alike() {
    let [mut lawful, mut open] = [0; 2];
    for seed in 0..small() {
        let survey = damage::corrupted(seed);
        let what = format!("corrupted, seed {seed}");
        match refusals::of_drawing(&survey) {
            0 => {
                assert_reckoned(&survey, seed, &what);
                lawful += 1;
            }
            refusal => {
                assert_not_drawn(&survey, refusal, &what);
                open += u64::from(refusal == OPEN_AT_BOX);
            }
        }
    }
    println!("volumes of corrupted surveys: {lawful} drawn, {open} refused by 12");
    let many = lawful > small() / 50 && open > small() / 100;
    assert!(small() < 1_000 || many, "{lawful} drawn, {open} refused by 12");
}
