//! Surveys with the same soundings in force are the same to every compiled call: with amendments, without, with others that do not hold. Each failure
//! names the generator and the seed that make the survey again.

mod number;
mod tables;

use clearance::{Edge, Mesh, Passage, Refusal, Water};
use number::number;
use surveys::amendments::alike;
use surveys::asked::questions;
use surveys::lent::bits;
use surveys::plain::{self, Plain};
use surveys::tally::Tally;
use surveys::{damage, generate, refusals, Survey};
use tables::proved;

/// What the calls say of a survey, of these edges and of ways from these corners to these; the points of a drawing by their bits.
#[derive(PartialEq)]
struct Said {
    check: u32,
    answers: Vec<Result<Edge, Refusal>>,
    ways: Vec<Result<Passage, Refusal>>,
    drawn: Result<(Vec<u32>, Mesh, Water), Refusal>,
}

fn said(survey: &Survey, edges: &[plain::Edge], ends: &[[u32; 2]]) -> Said {
    let (tables, clearance) = (proved(survey), survey.clearance);
    let answer = |edge: &plain::Edge| {
        let (low, length) = (edge.low().map(u32::from), u32::from(edge.length));
        clearance::enquire(tables, clearance, edge.axis as u32, low, length)
    };
    let drawn = clearance::volume_to_vec(tables, clearance, [0, 1_024, 512]);
    Said {
        check: number(clearance::check(tables)),
        answers: edges.iter().map(answer).collect(),
        ways: ends.iter().map(|&[start, end]| clearance::way_to_vec(tables, clearance, start, end)).collect(),
        drawn: drawn.map(|(mesh, water)| (bits(mesh.points.as_flattened()), mesh, water)),
    }
}

fn assert_alike(survey: &Survey, edges: &[plain::Edge], what: &str) -> Said {
    let ends: Vec<[u32; 2]> = questions(1, survey, 4).into_iter().map(|asked| asked.ends).collect();
    let itself = said(survey, edges, &ends);
    for (how, other) in alike(survey) {
        assert!(said(&other, edges, &ends) == itself, "{what}: {how}");
    }
    itself
}

#[test]
fn lawful_surveys_with_the_same_soundings_in_force_are_alike() {
    let small = generate::named("small mixed", 0..1_000, |seed| generate::small_mixed(seed, 8));
    let large = generate::named("mixed", 0..200, generate::mixed);
    let (mut tally, mut shown) = (Tally::default(), 0);
    for (what, survey) in small.chain(large) {
        let edges: Vec<plain::Edge> = Plain::read(&survey).edges.into_iter().collect();
        let few: Vec<plain::Edge> = edges.iter().copied().step_by(1 + edges.len() / 10).collect();
        let Said { ways, drawn, .. } = assert_alike(&survey, &few, &what);
        shown += ways.iter().flatten().filter(|passage| passage.way.is_some()).count();
        match drawn {
            Ok((_, mesh, _)) => tally.add_drawn(&survey, mesh.points.len()),
            Err(_) => tally.add_open(),
        }
    }
    tally.assert_most_drawn("surveys that are alike");
    assert!(shown > 600, "{shown} ways");
}

/// A sounding in force that is not lawful is refused whether it stands in the corner table or in an amendment.
#[test]
fn refused_surveys_with_the_same_soundings_in_force_are_alike() {
    let box_edge = [plain::Edge::new(0, [0; 3], 1_024)];
    for (refusal, seed) in [7, 8].into_iter().flat_map(|refusal| (0..500).map(move |seed| (refusal, seed))) {
        let what = format!("damaged for {refusal}, seed {seed}");
        let survey = damage::damaged_for(refusal, seed).survey;
        let Said { check, answers, ways, drawn } = assert_alike(&survey, &box_edge, &what);
        assert_eq!(check, refusals::by_itself(refusal), "{what}");
        assert_eq!([number(answers[0]), number(drawn)], [refusal; 2], "{what}");
        assert!(ways.into_iter().all(|way| number(way) == refusal), "{what}: ways");
    }
}
