//! Random questions about ways, and random surveys whose ways are long: document 02, "Can she get through?". Random convoys are in
//! [`boats`](crate::boats).

use std::iter::repeat_with;
use std::ops::Range;

use crate::amendments::resounded;
use crate::generate::{named, small_survey};
use crate::joints::{Due, Joints};
use crate::plain::soundings;
use crate::random::Random;
use crate::refusals::NO_WAY;
use crate::tally::Ways;
use crate::trees::octree;
use crate::Survey;

/// A question about a way.
#[derive(Clone, Copy, Debug)]
pub struct Asked {
    /// The start and the end.
    pub ends: [u32; 2],
    /// How many elements the way slice and the work slice have.
    pub rooms: [usize; 2],
}

/// So many questions about a survey, lawful or not. Most are about two wet corners, if it has any, with slices that are long enough.
pub fn questions(seed: u64, survey: &Survey, count: usize) -> Vec<Asked> {
    let random = &mut Random::new(seed);
    let soundings = soundings(survey);
    repeat_with(|| question(random, &soundings, &[survey.clearance])).take(count).collect()
}

/// A question about corners with these soundings in force, of which those above every clearance are wet.
pub(crate) fn question(random: &mut Random, soundings: &[f32], clearances: &[f32]) -> Asked {
    let is_wet = |sounding: f32| clearances.iter().all(|&clearance| sounding > clearance);
    let numbered = (0..).zip(soundings).filter(|&(_, &sounding)| is_wet(sounding));
    let wet: Vec<u32> = numbered.map(|(number, _)| number).collect();
    Asked { ends: ends(random, soundings.len(), &wet), rooms: rooms(random, soundings.len()) }
}

/// Two wet corners, any two, one corner twice, or a number that is no corner's on one side or on both.
fn ends(random: &mut Random, corners: usize, wet: &[u32]) -> [u32; 2] {
    let any = |random: &mut Random| random.below(corners.max(1)) as u32;
    let wet_or_any = |random: &mut Random| if wet.is_empty() { any(random) } else { random.pick(wet) };
    match random.below(16) {
        0 => [any(random), any(random)],
        1 => [any(random), wet_or_any(random)],
        2 => [wet_or_any(random), any(random)],
        3 => [any(random); 2],
        4 => [wet_or_any(random); 2],
        5 => [wet_or_any(random), beyond(random, corners, wet)],
        6 => [beyond(random, corners, wet), wet_or_any(random)],
        7 => [beyond(random, corners, wet), beyond(random, corners, wet)],
        _ => [wet_or_any(random), wet_or_any(random)],
    }
}

/// A number that is no corner's, next to the last one's or far from it; most would be a wet corner's if their high bits were left out.
fn beyond(random: &mut Random, corners: usize, wet: &[u32]) -> u32 {
    let corner = if wet.is_empty() { 0 } else { random.pick(wet) };
    let next = corners as u32;
    random.pick(&[next, next + 1, 1 << 16 | corner, 1 << 31 | corner, u32::MAX << 16 | corner, u32::MAX])
}

/// Slices as long as need be, longer, an element too short, much too short, or empty; either or both of them.
fn rooms(random: &mut Random, corners: usize) -> [usize; 2] {
    let short = match random.below(3) {
        0 => random.below(corners.max(1)),
        1 => 0,
        _ => corners.saturating_sub(1),
    };
    match random.below(16) {
        0 => [short, corners],
        1 => [corners, short],
        2 => [short, short],
        3 | 4 => [corners + 1 + random.below(9), corners + 1 + random.below(9)],
        _ => [corners, corners],
    }
}

/// More wet corners than these have too many ways to look at all.
const FEW_WET: usize = 11;

/// Hands what is due of every two wet corners, and of a dry one, to a comparison, for each of these seeds that makes a survey with few wet corners. Stops
/// if too few ways of any kind were met.
pub fn compare_with_all_ways(seeds: Range<u64>, compare: impl Fn(&Survey, &Due, &str)) {
    let one_boat = |_, survey: &Survey| vec![survey.clearance];
    compare_convoys_with_all_ways(seeds, one_boat, |survey, _, due, what| compare(survey, due, what));
}

/// The same for a lawful convoy of each survey, which is made from the seed. A wet corner is one that is wet for every boat.
pub fn compare_convoys_with_all_ways(
    seeds: Range<u64>,
    convoy: impl Fn(u64, &Survey) -> Vec<f32>,
    compare: impl Fn(&Survey, &[f32], &Due, &str),
) {
    let mut seen = Ways::default();
    let made = |seed| small_survey(seed, (seed % 5) as usize);
    for (seed, (what, survey)) in seeds.clone().zip(named("small survey", seeds, made)) {
        let clearances = convoy(seed, &survey);
        let joints = Joints::read(&survey).for_convoy(&survey, &clearances);
        let all_due = if joints.wet_count() > FEW_WET { Vec::new() } else { joints.due() };
        for due in all_due {
            compare(&survey, &clearances, &due, &what);
            let number = if due.way.is_some() { 0 } else { NO_WAY };
            seen.add(&joints, number, &due.way.unwrap_or_default(), &due.work);
        }
    }
    let often = [("shown", 4), ("no way", 10)];
    let less_often = [("of one corner", 20), ("with others as short", 20), ("from a dry start", 20)];
    seen.assert_met(&[&often[..], &less_often].concat(), "all ways");
}

/// A random survey with a winding way, which is the only one between its ends in every second survey; in the others some more corners are wet. Gives
/// the ends too.
pub fn winding(seed: u64) -> (Survey, [u32; 2]) {
    let random = &mut Random::new(seed);
    let splits = random.pick(&[1, 8, 64, 256]);
    let octree = octree(random, splits);
    let joined = Joints::read(&Survey::new(&octree, |_| -1.0)).joined;
    let way = (0..8).map(|_| winding_way(random, &joined)).max_by_key(Vec::len).expect("eight of them");
    let more = random.pick(&[None, Some(8)]);
    let mut numbers = 0..;
    let survey = Survey::new(&octree, |_| {
        let is_on_way = numbers.next().is_some_and(|number| way.contains(&number));
        if is_on_way || more.is_some_and(|times| random.one_in(times)) {
            1.0
        } else {
            -1.0
        }
    });
    (resounded(random, &survey), [way[0], way[way.len() - 1]].map(u32::from))
}

/// A way from anywhere until it can't go on, on which each corner is joined to no other but the one before it and the one after it.
fn winding_way(random: &mut Random, joined: &[Vec<u16>]) -> Vec<u16> {
    let mut way = vec![random.below(joined.len()) as u16];
    loop {
        let last = way[way.len() - 1];
        let apart = |next: &u16| {
            let mut others = joined[usize::from(*next)].iter().filter(|&&other| other != last);
            others.all(|other| !way.contains(other))
        };
        let choices: Vec<u16> = joined[usize::from(last)].iter().copied().filter(apart).collect();
        if choices.is_empty() {
            return way;
        }
        way.push(random.pick(&choices));
    }
}

#[cfg(test)]
mod tests {
    use std::collections::BTreeMap;

    use super::*;
    use crate::generate;
    use crate::refusals::{of_way, WAY_END, WAY_SLICE};
    use crate::survey::Record;

    fn asked() -> impl Iterator<Item = (Survey, Asked)> {
        let surveys = (0..400).map(|seed| (seed, generate::small_mixed(seed, 8)));
        surveys.flat_map(|(seed, survey)| {
            questions(seed, &survey, 4).into_iter().map(move |asked| (survey.clone(), asked))
        })
    }

    #[test]
    fn questions_meet_every_refusal_and_ways() {
        let mut met: BTreeMap<u32, usize> = BTreeMap::new();
        for (survey, Asked { ends, rooms }) in asked() {
            *met.entry(of_way(&survey, ends, rooms)).or_default() += 1;
        }
        for refusal in [0, WAY_END, WAY_SLICE, NO_WAY] {
            assert!(met[&refusal] > 150, "{met:?}");
        }
    }

    /// A check that leaves out one end, one slice, or high bits, or that stands out of order, meets questions that show it.
    #[test]
    fn questions_show_either_end_and_either_slice() {
        type Shows = fn(usize, Asked) -> bool;
        let shown: [(&str, Shows); 8] = [
            ("only the start beyond", |corners, Asked { ends, .. }| beyond(corners, ends) == [true, false]),
            ("only the end beyond", |corners, Asked { ends, .. }| beyond(corners, ends) == [false, true]),
            ("only the way slice short", |corners, Asked { rooms, .. }| {
                rooms[0] < corners && rooms[1] >= corners
            }),
            ("only the work slice short", |corners, Asked { rooms, .. }| {
                rooms[0] >= corners && rooms[1] < corners
            }),
            ("longer slices", |corners, Asked { rooms, .. }| rooms[0] > corners && rooms[1] > corners),
            ("both refusals", |corners, Asked { ends, rooms }| {
                beyond(corners, ends).contains(&true) && rooms[0] < corners
            }),
            ("a corner but for high bits", |corners, Asked { ends, .. }| {
                beyond(corners, ends).contains(&true)
                    && ends.iter().all(|end| (end % (1 << 16)) < corners as u32)
            }),
            ("one corner twice", |corners, Asked { ends, .. }| {
                ends[0] == ends[1] && (ends[0] as usize) < corners
            }),
        ];
        fn beyond(corners: usize, ends: [u32; 2]) -> [bool; 2] {
            ends.map(|end| end as usize >= corners)
        }
        let all: Vec<(usize, Asked)> =
            asked().map(|(survey, asked)| (survey.corners.len() / Record::BYTES, asked)).collect();
        for (what, shows) in shown {
            let count = all.iter().filter(|(corners, asked)| shows(*corners, *asked)).count();
            assert!(count > 10, "{what}: {count} of {}", all.len());
        }
    }

    /// Some are of hundreds of corners.
    #[test]
    fn winding_ways_lead_from_end_to_end() {
        let mut longest = 0;
        for seed in 0..40 {
            let (survey, ends) = winding(seed);
            let joints = Joints::read(&survey);
            let [start, end] = ends.map(|end| end as u16);
            assert!(joints.reach(start).contains(&end), "seed {seed}");
            longest = longest.max(joints.wet_count());
        }
        assert!(longest > 300, "{longest} wet corners");
    }
}
