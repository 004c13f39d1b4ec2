//! Surveys with the same soundings in force are the same to every call: with amendments, without, with others that do not
//! hold. Each failure names the generator and the seed that make the survey again.

mod answers;
mod tables;

use answers::{ask, plain_answer};
use drawing::{check, draw_to_vec, Drawing};
use surveys::amendments::alike;
use surveys::lent::bits;
use surveys::plain::Plain;
use surveys::tally::Tally;
use surveys::{generate, Survey};
use tables::tables;

/// A survey's points by their bits and its triangles, or its refusal.
fn drawn(survey: &Survey) -> Result<(Vec<u32>, Vec<u32>), u32> {
    let drawing = draw_to_vec(tables(survey), survey.clearance);
    drawing.map(|Drawing { points, triangles }| (bits(&points), triangles))
}

/// Lawful surveys that are alike to this one pass, are drawn or refused as it is, and have the answers that are due.
fn assert_alike(survey: &Survey, what: &str) {
    let plain = Plain::read(survey);
    let drawn_itself = drawn(survey);
    for (how, other) in alike(survey) {
        assert_eq!(check(tables(&other)), 0, "{what}: {how}");
        assert!(drawn(&other) == drawn_itself, "{what}: {how}");
        for &edge in plain.edges.iter().step_by(1 + plain.edges.len() / 10) {
            assert_eq!(ask(&other, edge), plain_answer(&plain, edge), "{what}: {how}, {edge:?}");
        }
    }
}

#[test]
fn surveys_with_the_same_soundings_in_force_are_alike() {
    let small = generate::named("small mixed", 0..1_000, |seed| generate::small_mixed(seed, 8));
    let large = generate::named("mixed", 0..60, generate::mixed);
    let mut tally = Tally::default();
    for (what, survey) in small.chain(large) {
        assert_alike(&survey, &what);
        match drawn(&survey) {
            Ok((points, _)) => tally.add_drawn(&survey, points.len() / 3),
            Err(_) => tally.add_open(),
        }
    }
    tally.assert_most_drawn("surveys that are alike");
}
