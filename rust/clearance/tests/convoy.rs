//! The compiled call for a convoy against the independent Rust reading's, result and every element of both slices, with guard elements around them and
//! anything in them before; against all ways over corners that are wet for every boat, where these are few; against the compiled way of one boat at the
//! greatest clearance, by either zero; and every refusal in its order. Each failure names the generator and the seed that make the survey and the convoys
//! again. The tests print how many convoys of each kind they have met. `CLEARANCE_SMALL` and `CLEARANCE_LARGE` set how many random surveys there are.

mod how_many;
mod passages;
mod tables;

use std::collections::BTreeMap;

use drawing::Passage;
use how_many::{large, small};
use passages::{
    assert_any_numbers, assert_damaged, assert_due, assert_in_vectors, assert_same, compiled, small_surveys,
    surveys_of_a_given_size, surveys_of_every_size, winding_surveys, Boats, Seeded,
};
use surveys::asked::{compare_convoys_with_all_ways, Asked};
use surveys::boats::{convoy_questions, convoy_questions_with_own, kinds, lawful_convoy, Convoy, MOST};
use surveys::convoys::{known, several, Known, Several};
use surveys::joints::Joints;
use surveys::lent::WaySlices;
use surveys::refusals::{of_convoy, CONVOY, NO_WAY, WAY_END, WAY_SLICE};
use surveys::survey::Record;
use surveys::tally::Ways;
use surveys::{damage, Survey};

/// So many convoys ask about a survey.
const QUESTIONS: usize = 2;

/// Asks for a convoy by both calls, and by the compiled ones as one boat and with the other zeros.
fn assert_answered(survey: &Survey, convoy: &Convoy, seed: u64, what: &str) -> WaySlices<Passage> {
    let Convoy { clearances, asked } = convoy;
    let shown = assert_same(survey, Boats::Convoy(clearances), *asked, seed, what);
    let what = &format!("{what}, {convoy:?}");
    if ![CONVOY, 8].contains(&shown.0.number) {
        let greatest = clearances.iter().copied().fold(f32::NEG_INFINITY, f32::max);
        for boat in [greatest, other_zero(greatest)] {
            assert_eq!(shown, compiled(survey, Boats::One(boat), *asked, seed, what), "{what}: {boat:?}");
        }
    }
    if clearances.contains(&0.0) {
        let others: Vec<f32> = clearances.iter().copied().map(other_zero).collect();
        let same = compiled(survey, Boats::Convoy(&others), *asked, seed, what);
        assert_eq!(shown, same, "{what}: the other zeros");
    }
    shown
}

/// The other zero, if the clearance is one.
fn other_zero(clearance: f32) -> f32 {
    if clearance == 0.0 {
        -clearance
    } else {
        clearance
    }
}

/// Asks the questions of a seed about a lawful survey.
fn look(seen: &mut Ways, Seeded { survey, seed, what }: &Seeded) {
    let joints = Joints::read(survey);
    for convoy in convoy_questions(*seed, survey, QUESTIONS) {
        take_down(seen, &joints, survey, &convoy, assert_answered(survey, &convoy, *seed, what));
        let Convoy { clearances, asked } = convoy;
        assert_in_vectors(survey, Boats::Convoy(&clearances), asked.ends, *seed, what);
    }
}

/// The kinds of a convoy count if its question is answered, by a way or by none.
fn take_down(
    seen: &mut Ways,
    joints: &Joints,
    survey: &Survey,
    Convoy { clearances, .. }: &Convoy,
    (Passage { number, corners }, way, work): WaySlices<Passage>,
) {
    let is_answered = [0, NO_WAY].contains(&number);
    seen.add(&joints.for_convoy(survey, clearances), number, &way[..corners as usize], &work);
    seen.note(&[("unlawful", number == 8)]);
    let kinds = kinds(survey, clearances).into_iter();
    seen.note(&kinds.map(|(kind, is_met)| (kind, is_met && is_answered)).collect::<Vec<_>>());
}

/// Convoys that must not be missing in any comparison: one in so many questions.
const EVERYWHERE: [(&str, usize); 7] = [
    ("shown", 5),
    ("no convoy", 20),
    ("unlawful", 20),
    ("of 16 boats", 20),
    ("the first decides", 40),
    ("one between decides", 40),
    ("the last decides", 40),
];

#[test]
fn the_convoys_that_can_be_said_by_hand() {
    let mut count = 0;
    for Known { name, survey, convoys, due } in known() {
        convoys.iter().for_each(|boats| assert_due(&survey, Boats::Convoy(boats), &due, &name));
        count += convoys.len();
    }
    println!("said by hand: {count} convoys");
}

#[test]
fn of_several_refusals_the_first_in_order_is_given() {
    println!("several refusals: {} questions", several().len());
    for Several { survey, clearances, ends, rooms, refusal } in several() {
        let asked = Asked { ends, rooms };
        let (result, ..) = assert_same(&survey, Boats::Convoy(&clearances), asked, 0, "several");
        assert_eq!(result.number, refusal, "{clearances:?} from {ends:?} with room for {rooms:?}");
    }
}

#[test]
fn of_all_ways_the_shortest_and_of_these_the_lowest() {
    compare_convoys_with_all_ways(0..small(), lawful_convoy, |survey, clearances, due, what| {
        assert_due(survey, Boats::Convoy(clearances), due, what);
    });
}

#[test]
fn convoys_on_small_surveys() {
    let mut seen = Ways::default();
    small_surveys().for_each(|seeded| look(&mut seen, &seeded));
    let one_in = [
        ("of one corner", 20),
        ("with others as short", 20),
        ("no way", 16),
        ("from a dry start", 40),
        ("no corner", 16),
        ("short slices", 16),
        ("of one boat", 20),
        ("the greatest are equal", 20),
        ("both zeros are greatest", 40),
    ];
    seen.assert_met(&[&one_in[..], &EVERYWHERE].concat(), "convoys on small surveys");
}

#[test]
fn convoys_on_surveys_of_every_size() {
    let mut seen = Ways::default();
    surveys_of_every_size().for_each(|seeded| look(&mut seen, &seeded));
    let one_in = [("with others as short", 20), ("no way", 20), ("no corner", 16), ("short slices", 16)];
    seen.assert_met(&[&one_in[..], &EVERYWHERE].concat(), "convoys on surveys of every size");
}

#[test]
fn convoys_on_surveys_of_a_given_size() {
    let mut seen = Ways::default();
    surveys_of_a_given_size(10).for_each(|seeded| look(&mut seen, &seeded));
    let one_in = [("long", 100), ("with others as short", 20)];
    seen.assert_met(&[&one_in[..], &EVERYWHERE].concat(), "convoys on surveys of a given size");
}

/// From end to end of the longest way that was laid out, by a convoy of which one boat just passes, or just does not; and by other questions.
#[test]
fn convoys_on_winding_ways() {
    let (mut seen, mut longest) = (Ways::default(), 0);
    for (seeded, ends) in winding_surveys(large() / 4) {
        let Seeded { survey, seed, what } = &seeded;
        let (joints, corners) = (Joints::read(survey), survey.corners.len() / Record::BYTES);
        for boat in [1.0f32.next_down(), 1.0] {
            let count = 1 + *seed as usize % MOST;
            let mut clearances = vec![-0.5; count];
            clearances[*seed as usize / MOST % count] = boat;
            let convoy = Convoy { clearances, asked: Asked { ends, rooms: [corners; 2] } };
            let shown = assert_answered(survey, &convoy, *seed, what);
            assert_eq!(shown.0.number, if boat < 1.0 { 0 } else { NO_WAY }, "{what}");
            longest = longest.max(shown.0.corners);
            take_down(&mut seen, &joints, survey, &convoy, shown);
        }
        look(&mut seen, &seeded);
    }
    seen.assert_met(&[("shown", 4), ("long", 10), ("with others as short", 40)], "convoys on winding ways");
    println!("convoys on winding ways: the longest has {longest} corners");
    assert!(large() < 100 || longest > 200, "the longest has {longest} corners");
}

/// The survey's own clearance, which may be what is wrong with it, is that of one boat.
#[test]
fn damaged_surveys_touch_nothing() {
    assert_damaged(|survey, seed, what| {
        let convoys = convoy_questions_with_own(seed, survey, 1).into_iter();
        convoys.map(|convoy| assert_answered(survey, &convoy, seed, what).0.number).collect()
    });
}

#[test]
fn corrupted_surveys_are_answered_or_refused_alike() {
    let mut met: BTreeMap<u32, u64> = BTreeMap::new();
    for seed in 0..small() {
        let survey = damage::corrupted(seed);
        let what = format!("corrupted, seed {seed}");
        for convoy in convoy_questions(seed, &survey, 2) {
            let (result, ..) = assert_answered(&survey, &convoy, seed, &what);
            let Convoy { clearances, asked: Asked { ends, rooms } } = &convoy;
            assert_eq!(result.number, of_convoy(&survey, clearances, *ends, *rooms), "{what}, {convoy:?}");
            *met.entry(result.number).or_default() += 1;
        }
    }
    println!("corrupted, by number: {met:?}");
    for number in [0, CONVOY, 8, WAY_END, WAY_SLICE, NO_WAY] {
        let times = met.get(&number).copied().unwrap_or(0);
        assert!(small() < 1_000 || times > small() / 100, "{number} was met {times} times");
    }
}

#[test]
fn any_numbers_are_answered() {
    assert_any_numbers(Boats::Convoy(&[-3.0, -2.0, -2.5]));
}
