//! The compiled way against the independent Rust reading's, result and every element of both slices, with guard elements around them and anything in
//! them before; against all ways over wet corners, where these are few; and every refusal in its order. Each failure names the generator and the seed that
//! make the survey and the questions again. The tests print how many ways of each kind they have met. `CLEARANCE_SMALL` and `CLEARANCE_LARGE` set how many
//! random surveys there are.

mod how_many;
mod passages;
mod tables;

use how_many::{large, small};
use passages::{
    assert_any_numbers, assert_damaged, assert_due, assert_in_vectors, assert_same, small_surveys,
    surveys_of_a_given_size, surveys_of_every_size, winding_surveys, Boats, Seeded,
};
use surveys::asked::{compare_with_all_ways, questions, Asked};
use surveys::joints::Joints;
use surveys::refusals::of_way;
use surveys::tally::Ways;
use surveys::ways::{known, several, Known, Several};
use surveys::{damage, Survey};

/// So many questions are asked about a survey.
const QUESTIONS: usize = 4;

/// The boat of a survey's own clearance.
fn boat(survey: &Survey) -> Boats<'static> {
    Boats::One(survey.clearance)
}

/// Asks the questions of a seed about a lawful survey.
fn look(seen: &mut Ways, Seeded { survey, seed, what }: &Seeded) {
    let joints = Joints::read(survey);
    for asked in questions(*seed, survey, QUESTIONS) {
        let (result, way, work) = assert_same(survey, boat(survey), asked, *seed, what);
        seen.add(&joints, result.number, &way[..result.corners as usize], &work);
        assert_in_vectors(survey, boat(survey), asked.ends, *seed, what);
    }
}

#[test]
fn the_ways_that_can_be_said_by_hand() {
    for Known { name, survey, due } in known() {
        assert_due(&survey, boat(&survey), &due, name);
    }
}

#[test]
fn of_several_refusals_the_first_in_order_is_given() {
    for Several { survey, ends, rooms, refusal } in several() {
        let (result, ..) = assert_same(&survey, boat(&survey), Asked { ends, rooms }, 0, "several");
        assert_eq!(result.number, refusal, "from {ends:?} with room for {rooms:?}");
    }
}

#[test]
fn of_all_ways_the_shortest_and_of_these_the_lowest() {
    compare_with_all_ways(0..small(), |survey, due, what| assert_due(survey, boat(survey), due, what));
}

#[test]
fn ways_of_small_surveys() {
    let mut seen = Ways::default();
    small_surveys().for_each(|seeded| look(&mut seen, &seeded));
    let one_in = [
        ("shown", 5),
        ("of one corner", 20),
        ("with others as short", 20),
        ("no way", 8),
        ("from a dry start", 20),
        ("no corner", 8),
        ("short slices", 8),
    ];
    seen.assert_met(&one_in, "small surveys");
}

#[test]
fn ways_of_surveys_of_every_size() {
    let mut seen = Ways::default();
    surveys_of_every_size().for_each(|seeded| look(&mut seen, &seeded));
    let one_in =
        [("shown", 5), ("with others as short", 20), ("no way", 8), ("no corner", 8), ("short slices", 8)];
    seen.assert_met(&one_in, "surveys of every size");
}

#[test]
fn ways_of_surveys_of_a_given_size() {
    let mut seen = Ways::default();
    surveys_of_a_given_size(20).for_each(|seeded| look(&mut seen, &seeded));
    seen.assert_met(&[("shown", 4), ("long", 40), ("with others as short", 20)], "surveys of a given size");
}

/// From end to end of the longest way that was laid out, and by other questions.
#[test]
fn winding_ways() {
    let (mut seen, mut longest) = (Ways::default(), 0);
    for (seeded, ends) in winding_surveys(large() / 2) {
        let Seeded { survey, seed, what } = &seeded;
        let (result, way, work) = assert_in_vectors(survey, boat(survey), ends, *seed, what);
        seen.add(&Joints::read(survey), result.number, &way[..result.corners as usize], &work);
        longest = longest.max(result.corners);
        look(&mut seen, &seeded);
    }
    seen.assert_met(&[("shown", 4), ("long", 10), ("with others as short", 40)], "winding ways");
    println!("winding ways: the longest has {longest} corners");
    assert!(large() < 100 || longest > 200, "the longest has {longest} corners");
}

#[test]
fn damaged_surveys_touch_nothing() {
    assert_damaged(|survey, seed, what| {
        let asked = questions(seed, survey, 2).into_iter();
        asked.map(|asked| assert_same(survey, boat(survey), asked, seed, what).0.number).collect()
    });
}

#[test]
fn corrupted_surveys_are_answered_or_refused_alike() {
    let mut lawful = 0;
    for seed in 0..small() {
        let survey = damage::corrupted(seed);
        for asked in questions(seed, &survey, 2) {
            let what = format!("corrupted, seed {seed}");
            let (result, ..) = assert_same(&survey, boat(&survey), asked, seed, &what);
            assert_eq!(result.number, of_way(&survey, asked.ends, asked.rooms), "corrupted, seed {seed}");
            lawful += u64::from([0, 18, 19, 20].contains(&result.number));
        }
    }
    println!("corrupted: {lawful} answered or refused for the question alone");
    assert!(small() < 1_000 || lawful > small() / 10, "{lawful} answered or refused for the question alone");
}

#[test]
fn any_numbers_are_answered() {
    assert_any_numbers(Boats::One(-2.0));
}
