//! The space inside drawings: as said by hand, as upright prisms have it, and the same from every reference point. Each failure names the generator and
//! the seed that make the survey again.

mod tables;

use drawing::{draw_to_vec, volume, Drawing, Drawn, Water};
use surveys::generate::{self, named};
use surveys::lent::{bits, lend};
use surveys::plain::Plain;
use surveys::refusals::{self, OPEN_AT_BOX};
use surveys::tally::Tally;
use surveys::{references, volumes, water, Survey};
use tables::tables;

/// Draws into vectors, and reckons the space inside from every reference; the slices are those of the drawing alone, and the sums one. Gives back the
/// drawing and the sum.
fn reckoned(survey: &Survey, seed: u64, what: &str) -> (Drawing, i128) {
    let drawing = draw_to_vec(tables(survey), survey.clearance).expect(what);
    let (points, triangles) = (drawing.points.len(), drawing.triangles.len());
    let drawn = Drawn { number: 0, points: points as u32 / 3, triangles: triangles as u32 / 3 };
    let sixfold = water::sixfold(&drawing.points, &drawing.triangles);
    for reference in references::of_box(seed) {
        let (water, floats, numbers) = lend(points, triangles, what, |points, triangles| {
            let water = volume(tables(survey), survey.clearance, reference, points, triangles);
            (water, water.drawn.written())
        });
        assert_eq!(water, Water { drawn, sixfold }, "{what}: from {reference:?}");
        assert_eq!(bits(&floats), bits(&drawing.points), "{what}: points");
        assert_eq!(numbers, drawing.triangles, "{what}: triangles");
    }
    (drawing, sixfold)
}

#[test]
fn the_space_that_can_be_said_by_hand() {
    for volumes::Held { name, survey, sixfold } in volumes::held() {
        assert_eq!(reckoned(&survey, 0, name).1, i128::from(sixfold), "{name}");
    }
}

#[test]
fn random_surveys_hold_the_same_from_every_reference() {
    let small = (0..1_000).zip(named("small mixed", 0..1_000, |seed| generate::small_mixed(seed, 8)));
    let large = (0..100).zip(named("mixed", 0..100, generate::mixed));
    let mut tally = Tally::default();
    let mut spaces = 0;
    for (seed, (what, survey)) in small.chain(large) {
        if refusals::of_drawing(&survey) == OPEN_AT_BOX {
            tally.add_open();
            continue;
        }
        let (drawing, sixfold) = reckoned(&survey, seed, &what);
        // Not proved: seen of all surveys tried.
        assert!(sixfold >= 0, "{what}: {sixfold}");
        tally.add_drawn(&survey, drawing.points.len() / 3);
        spaces += usize::from(sixfold > 0);
    }
    tally.assert_most_drawn("the space inside");
    assert!(spaces > 700, "{spaces} with space inside");
}

/// How far apart the points of one wet centre are on an axis, in sixteenths: two for each axis, the lower first.
fn width(plain: &Plain, axis: usize) -> i128 {
    let [lower, upper] = [2 * axis, 2 * axis + 1].map(|point| plain.place(plain.carriers[point])[axis]);
    water::sixteenths(upper) - water::sixteenths(lower)
}

/// One split has one corner inside the box. Where it is wet, six times the space is the product of the widths.
#[test]
fn around_a_wet_centre_the_sum_is_the_product_of_the_widths() {
    let [mut wet, mut positive] = [0; 2];
    for (what, survey) in named("small interior", 0..2_000, |seed| generate::small_interior(seed, 1)) {
        let plain = Plain::read(&survey);
        if plain.carriers.is_empty() {
            continue;
        }
        let widths = [0, 1, 2].map(|axis| width(&plain, axis));
        let (_, sixfold) = reckoned(&survey, 0, &what);
        assert_eq!(sixfold, widths.iter().product(), "{what}");
        assert!(widths.iter().all(|&width| width >= 0), "{what}: {widths:?}");
        wet += 1;
        positive += usize::from(sixfold > 0);
    }
    println!("a wet centre: {wet}, of them {positive} with space inside");
    assert!(wet > 500 && 2 * positive > wet, "{wet} wet, {positive} with space inside");
}
