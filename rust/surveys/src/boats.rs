//! Random convoys, asked about ways: document 02, "A convoy on one way". Most are lawful, of clearances between which corners of the survey fall dry, so
//! that the boats differ in what they can pass.

use std::iter::repeat_with;

use crate::asked::{question, Asked};
use crate::plain::soundings;
use crate::random::Random;
use crate::refusals::out_of_range;
use crate::soundings::unlawful;
use crate::Survey;

/// The most boats of a convoy.
pub const MOST: usize = 16;

/// A question about a convoy.
#[derive(Clone, Debug)]
pub struct Convoy {
    /// The clearance of each boat.
    pub clearances: Vec<f32>,
    /// From where to where, and with which slices.
    pub asked: Asked,
}

/// So many questions about a survey, lawful or not. Most are of lawful convoys, about two corners that are wet for every boat, if there are any, with slices
/// that are long enough.
pub fn convoy_questions(seed: u64, survey: &Survey, count: usize) -> Vec<Convoy> {
    asked_by(seed, survey, count, |random, levels| match random.below(16) {
        0 => Vec::new(),
        1 => too_many(random, levels),
        2 | 3 => one_unlawful(random, levels),
        4 => both_zeros(random, levels),
        _ => lawful(random, levels),
    })
}

/// So many questions of lawful convoys in which the survey's own clearance, lawful or not, has a place.
pub fn convoy_questions_with_own(seed: u64, survey: &Survey, count: usize) -> Vec<Convoy> {
    asked_by(seed, survey, count, |random, levels| replacing_one(random, levels, survey.clearance))
}

/// A lawful convoy for a lawful survey.
pub fn lawful_convoy(seed: u64, survey: &Survey) -> Vec<f32> {
    lawful(&mut Random::new(seed), &levels(survey))
}

fn asked_by(
    seed: u64,
    survey: &Survey,
    count: usize,
    clearances: impl Fn(&mut Random, &[f32]) -> Vec<f32>,
) -> Vec<Convoy> {
    let random = &mut Random::new(seed);
    let (levels, soundings) = (levels(survey), soundings(survey));
    let convoy = || {
        let clearances = clearances(random, &levels);
        Convoy { asked: question(random, &soundings, &clearances), clearances }
    };
    repeat_with(convoy).take(count).collect()
}

/// Lawful clearances between which corners fall dry one after another: the survey's own, its soundings in force, the numbers next to these, and both
/// zeros, rising.
fn levels(survey: &Survey) -> Vec<f32> {
    let own = soundings(survey).into_iter().chain([survey.clearance]);
    let near = own.flat_map(|level: f32| [level.next_down(), level, level.next_up()]).chain([0.0, -0.0]);
    let mut levels: Vec<f32> = near.filter(|&level| !out_of_range(level)).collect();
    levels.sort_unstable_by(f32::total_cmp);
    levels.dedup_by_key(|level| level.to_bits());
    levels
}

/// A convoy of few boats, of as many as there may be, or of any number between.
fn lawful(random: &mut Random, levels: &[f32]) -> Vec<f32> {
    let any = 1 + random.below(MOST);
    let count = random.pick(&[1, 2, 3, MOST, any, any]);
    boats(random, levels, count)
}

/// So many boats, none above one of the levels. This is a low one more often than a high one, so that many corners are wet for all of them.
fn boats(random: &mut Random, levels: &[f32], count: usize) -> Vec<f32> {
    let highest = random.below(levels.len()).min(random.below(levels.len()));
    repeat_with(|| random.pick(&levels[..=highest])).take(count).collect()
}

/// Boats of which none is above zero, and both zeros among them, anywhere and in either order.
fn both_zeros(random: &mut Random, levels: &[f32]) -> Vec<f32> {
    let not_above = levels.partition_point(|&level| level <= 0.0);
    let count = 2 + random.below(MOST - 1);
    let mut clearances = boats(random, &levels[..not_above], count);
    let place = random.below(count);
    clearances[place] = 0.0;
    clearances[(place + 1 + random.below(count - 1)) % count] = -0.0;
    clearances
}

/// One boat too many, or more; or so many that the low bits of their count are those of a lawful one. In every second one a boat is unlawful too.
fn too_many(random: &mut Random, levels: &[f32]) -> Vec<f32> {
    let count = random.pick(&[MOST + 1, MOST + 1, MOST + 2, 2 * MOST, 256 + 1, 256 + MOST]);
    let mut clearances = boats(random, levels, count);
    if random.one_in(2) {
        clearances[random.below(count)] = unlawful(random);
    }
    clearances
}

/// A lawful convoy but for the clearance of one boat, which may be anywhere in it.
fn one_unlawful(random: &mut Random, levels: &[f32]) -> Vec<f32> {
    let clearance = unlawful(random);
    replacing_one(random, levels, clearance)
}

fn replacing_one(random: &mut Random, levels: &[f32], clearance: f32) -> Vec<f32> {
    let mut clearances = lawful(random, levels);
    let place = random.below(clearances.len());
    clearances[place] = clearance;
    clearances
}

/// Which kinds of convoy this is one of, to take down for a lawful survey.
pub fn kinds(survey: &Survey, clearances: &[f32]) -> Vec<(&'static str, bool)> {
    let deciding = deciding(survey, clearances);
    let last = clearances.len().saturating_sub(1);
    let has_bits = |bits: u32| clearances.iter().any(|clearance| clearance.to_bits() == bits);
    let both_zeros = has_bits(0.0f32.to_bits()) && has_bits((-0.0f32).to_bits());
    vec![
        ("of one boat", clearances.len() == 1),
        ("of 16 boats", clearances.len() == MOST),
        ("the first decides", last > 0 && deciding == Some(0)),
        ("one between decides", deciding.is_some_and(|place| 0 < place && place < last)),
        ("the last decides", last > 0 && deciding == Some(last)),
        ("the greatest are equal", last > 0 && are_greatest_equal(clearances)),
        ("both zeros are greatest", both_zeros && clearances.iter().all(|&clearance| clearance <= 0.0)),
    ]
}

/// Whether two boats or more have the greatest clearance.
fn are_greatest_equal(clearances: &[f32]) -> bool {
    let greatest = |one: &&f32| clearances.iter().all(|other| other <= *one);
    clearances.iter().filter(greatest).count() > 1
}

/// Where in a convoy the boat is that alone keeps it off some corner: the corner is dry for her, and wet for all others.
fn deciding(survey: &Survey, clearances: &[f32]) -> Option<usize> {
    let soundings = soundings(survey);
    let keeps_off = |place: usize, sounding: f32| {
        (0..clearances.len()).all(|other| (sounding > clearances[other]) == (other != place))
    };
    (0..clearances.len()).find(|&place| soundings.iter().any(|&sounding| keeps_off(place, sounding)))
}

#[cfg(test)]
mod tests {
    use std::collections::BTreeMap;

    use super::*;
    use crate::generate;
    use crate::refusals::{of_boats, of_convoy, CONVOY, NO_WAY, WAY_END, WAY_SLICE};

    fn asked() -> impl Iterator<Item = (Survey, Convoy)> {
        let surveys = (0..600).map(|seed| (seed, generate::small_mixed(seed, 8)));
        surveys.flat_map(|(seed, survey)| {
            convoy_questions(seed, &survey, 4).into_iter().map(move |convoy| (survey.clone(), convoy))
        })
    }

    #[test]
    fn convoys_meet_every_refusal_and_ways() {
        let mut met: BTreeMap<u32, usize> = BTreeMap::new();
        for (survey, Convoy { clearances, asked: Asked { ends, rooms } }) in asked() {
            *met.entry(of_convoy(&survey, &clearances, ends, rooms)).or_default() += 1;
        }
        for refusal in [0, 8, WAY_END, WAY_SLICE, NO_WAY, CONVOY] {
            assert!(met[&refusal] > 150, "{met:?}");
        }
    }

    /// A call that takes another boat's clearance for the greatest, or looks at a part of the convoy alone, meets convoys that show it.
    #[test]
    fn lawful_convoys_are_of_every_kind() {
        let mut met: BTreeMap<&str, usize> = BTreeMap::new();
        for (survey, Convoy { clearances, .. }) in asked() {
            let is_lawful = of_boats(&survey, &clearances) == 0;
            for (kind, is_met) in kinds(&survey, &clearances) {
                *met.entry(kind).or_default() += usize::from(is_lawful && is_met);
            }
        }
        assert!(met.values().all(|&count| count > 60), "{met:?}");
    }

    #[test]
    fn refused_convoys_are_of_every_kind() {
        type Shows = fn(&[f32]) -> bool;
        let shown: [(&str, Shows); 8] = [
            ("none", |boats| boats.is_empty()),
            ("17", |boats| boats.len() == 17),
            ("too many, with an unlawful one", |boats| boats.len() > MOST && unlawful_place(boats).is_some()),
            ("too many by their high bits", |boats| boats.len() > 256 && boats.len() % 256 <= MOST),
            ("the first is unlawful", |boats| is_convoy(boats) && unlawful_place(boats) == Some(0)),
            ("one between is unlawful", |boats| {
                is_convoy(boats) && unlawful_place(boats).is_some_and(|at| 0 < at && at < boats.len() - 1)
            }),
            ("the last is unlawful", |boats| {
                is_convoy(boats) && unlawful_place(boats).is_some_and(|at| at == boats.len() - 1)
            }),
            ("an unlawful one, and not the greatest", |boats| {
                let beyond = |&boat: &f32| boat.is_nan() || boat < -1_048_576.0;
                is_convoy(boats) && boats.iter().any(beyond)
            }),
        ];
        fn unlawful_place(boats: &[f32]) -> Option<usize> {
            boats.iter().position(|&boat| out_of_range(boat))
        }
        fn is_convoy(boats: &[f32]) -> bool {
            (2..=MOST).contains(&boats.len())
        }
        let all: Vec<Vec<f32>> = asked().map(|(_, convoy)| convoy.clearances).collect();
        for (what, shows) in shown {
            let count = all.iter().filter(|boats| shows(boats)).count();
            assert!(count > 30, "{what}: {count} of {}", all.len());
        }
    }

    #[test]
    fn the_boat_that_decides_is_found() {
        // Soundings of 1 and -1.
        let survey = crate::document::one_corner_wet();
        assert_eq!(deciding(&survey, &[0.0, 1.0, 0.5]), Some(1));
        assert_eq!(deciding(&survey, &[-1.0, -2.0]), Some(0));
        assert_eq!(deciding(&survey, &[0.0, 0.5]), None);
        assert_eq!(deciding(&survey, &[1.0, 1.0]), None);
    }
}
