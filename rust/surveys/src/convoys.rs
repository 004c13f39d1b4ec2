//! Convoys of which the one way for all boats can be said by hand, and the order of refusals: document 02, "A convoy on one way".

use crate::boats::MOST;
use crate::joints::Due;
use crate::refusals::{CONVOY, NO_WAY, WAY_END, WAY_SLICE};
use crate::survey::{Octree, Record};
use crate::ways::{self, due, place};
use crate::Survey;

/// A survey asked about a way for convoys, of which all have the same.
pub struct Known {
    /// What it shows. No other has this name.
    pub name: String,
    /// The survey. Its own clearance is that of no boat.
    pub survey: Survey,
    /// The clearances of the boats of each convoy.
    pub convoys: Vec<Vec<f32>>,
    /// The question and the answer.
    pub due: Due,
}

/// The corners of one leaf.
const CORNERS: usize = 8;

/// The least number above 0.
const LEAST: f32 = f32::from_bits(1);

/// Corner 1 bars a boat of a clearance of 1.5 or more, corner 2 one of 2.5 or more, corner 3 one of 4 or more.
const BARS: [f32; CORNERS] = [9.0, 1.5, 2.5, 4.0, 9.0, 9.0, 9.0, 9.0];

/// One leaf with these soundings, and the answer as for one boat. Corner n is in place n, as for one boat.
fn known_as(
    name: &str,
    soundings: [f32; CORNERS],
    convoys: Vec<Vec<f32>>,
    ends: &str,
    way: &str,
    work: &str,
) -> Known {
    let mut in_order = soundings.into_iter();
    let survey = Survey::new(&Octree::splitting(&[]), |_| in_order.next().expect("a corner")).at(f32::NAN);
    Known { name: name.to_string(), survey, convoys, due: due(CORNERS, ends, way, work) }
}

/// The same boats, with each of them in turn at the head.
fn turned(clearances: &[f32]) -> Vec<Vec<f32>> {
    (0..clearances.len()).map(|by| [&clearances[by..], &clearances[..by]].concat()).collect()
}

/// As many boats as there may be, all of one clearance but for one, which is in every place.
fn one_among(clearance: f32, others: f32) -> Vec<Vec<f32>> {
    let mut clearances = [others; MOST];
    clearances[0] = clearance;
    turned(&clearances)
}

/// All of them.
pub fn known() -> Vec<Known> {
    [
        barred(),
        not_through(),
        sixteen(),
        next_to_each_other(),
        zeros(),
        below_zero(),
        resounded(),
        of_one_boat(),
    ]
    .into_iter()
    .flatten()
    .collect()
}

/// Boats that are barred by different corners.
fn barred() -> Vec<Known> {
    let known = |name, convoys, ends, way, work| known_as(name, BARS, convoys, ends, way, work);
    let descending = || [turned(&[3.0, 2.0, 1.0]), turned(&[1.0, 2.0, 3.0])].concat();
    vec![
        known("one boat", vec![vec![1.0]], "03", "013", "12232334"),
        known("equal boats", vec![vec![1.0; 2], vec![1.0; 5]], "03", "013", "12232334"),
        known("boats that no corner bars", turned(&[0.5, 1.0, -7.0]), "03", "013", "12232334"),
        known("a far lower boat", turned(&[-1_000_000.0, 1.0]), "03", "013", "12232334"),
        known("a boat that corner 1 bars", turned(&[1.0, 2.0]), "03", "023", "10232334"),
        known("two such boats", turned(&[2.0, 1.0, 2.0]), "03", "023", "10232334"),
        known("two that corner 1 bars by different amounts", turned(&[1.75, 2.0]), "03", "023", "10232334"),
        known("boats that corners 1 and 2 bar", descending(), "03", "04573", "10052334"),
        known("and back", descending(), "30", "37540", "50014332"),
        known("a wet corner to itself", turned(&[3.0, 1.0]), "00", "0", "10052334"),
    ]
}

/// Where one boat does not get through, none of the convoy does.
fn not_through() -> Vec<Known> {
    let known = |name, convoys, ends, work| known_as(name, BARS, convoys, ends, "", work);
    vec![
        known("an end that is dry for one boat", turned(&[1.0, 5.0, 2.0]), "03", "10002334"),
        known("a start that is dry for one boat", turned(&[1.0, 2.0]), "13", ""),
        known("a corner to itself that is dry for one boat", turned(&[1.0, 2.0]), "11", ""),
        known("two boats that don't get through", turned(&[5.0, 9.0, 1.0]), "03", ""),
        known("the highest lawful boat", turned(&[1_048_576.0, -1_048_576.0]), "00", ""),
    ]
}

/// Convoys of 16 boats, one of which decides, in every place.
fn sixteen() -> Vec<Known> {
    let known = |name, convoys, way, work| known_as(name, BARS, convoys, "03", way, work);
    let rising: Vec<f32> = (0..MOST).map(|boat| boat as f32 / 8.0).collect();
    let falling: Vec<f32> = rising.iter().rev().copied().collect();
    vec![
        known("16 boats, one barred by corner 1", one_among(2.0, 1.0), "023", "10232334"),
        known("16 boats, all but one barred by corner 1", one_among(1.0, 2.0), "023", "10232334"),
        known("16 boats, one barred by corners 1 and 2", one_among(3.0, 1.0), "04573", "10052334"),
        known("16 boats, one of which does not get through", one_among(5.0, 1.0), "", "10002334"),
        known(
            "16 boats, rising and falling",
            [rising, falling].map(|all| turned(&all)).concat(),
            "023",
            "10232334",
        ),
        known("16 of the lowest lawful boats", vec![vec![-1_048_576.0; MOST]], "013", "12232334"),
    ]
}

/// Boats whose clearances are next to each other, and to a sounding.
fn next_to_each_other() -> Vec<Known> {
    let known = |name, convoys, way, work| known_as(name, BARS, convoys, "03", way, work);
    let [below, above] = [1.5f32.next_down(), 1.5f32.next_up()];
    vec![
        known("just below a sounding", turned(&[below, 1.0]), "013", "12232334"),
        known("at a sounding", turned(&[below, 1.5]), "023", "10232334"),
        known("just above a sounding", turned(&[below, above]), "023", "10232334"),
    ]
}

/// Corner 1 is sounded at +0 and corner 2 at -0, all others just above both. It makes no difference which zero a boat has, and which comes first.
fn zeros() -> Vec<Known> {
    let soundings = [LEAST, 0.0, -0.0, LEAST, LEAST, LEAST, LEAST, LEAST];
    let known = |name, convoys, way, work| known_as(name, soundings, convoys, "03", way, work);
    let of_zeros = [&[0.0][..], &[-0.0], &[0.0, 0.0], &[-0.0, -0.0], &[0.0, -0.0], &[-0.0, 0.0, -LEAST]];
    vec![
        known("zeros", of_zeros.map(turned).concat(), "04573", "10052334"),
        known("16 zeros, one of them +0", one_among(0.0, -0.0), "04573", "10052334"),
        known("16 zeros, one of them -0", one_among(-0.0, 0.0), "04573", "10052334"),
        known("just below zero", turned(&[-LEAST, -1.0]), "013", "12232334"),
        known("just above zero", turned(&[LEAST, 0.0, -0.0]), "", ""),
    ]
}

/// Of clearances below 0 the greatest is that next to 0.
fn below_zero() -> Vec<Known> {
    let soundings = BARS.map(|sounding| sounding - 100.0);
    let known = |name, convoys, way, work| known_as(name, soundings, convoys, "03", way, work);
    vec![
        known("below zero, not barred", turned(&[-99.0, -200.0]), "013", "12232334"),
        known("below zero, barred by corner 1", turned(&[-99.0, -98.0, -99.5]), "023", "10232334"),
        known("below zero, not through", turned(&[-99.0, 98.0]), "", ""),
    ]
}

/// Corner 4 was sounded again, lower: it bars a boat of a clearance of 2 or more. Corner 1 was too, higher, and bars none here.
fn resounded() -> Vec<Known> {
    let known = |name, convoys, way, work| {
        let known = known_as(name, BARS, convoys, "03", way, work);
        let record = |(corner, sounding)| Record { place: place(corner), sounding, day: 1 };
        Known { survey: known.survey.amended([(4, 2.0), (1, 2.75)].map(record)), ..known }
    };
    vec![
        known("dredged for all boats", turned(&[1.0, 2.0]), "013", "12230334"),
        known("silted up for one boat", turned(&[1.0, 1.75, 2.875]), "", "1"),
    ]
}

/// What is known of one boat holds of every convoy in which she has the greatest clearance.
fn of_one_boat() -> Vec<Known> {
    let convoy = |ways::Known { name, survey, due }| {
        let boat = survey.clearance;
        let others = turned(&[boat, boat - 1.0, boat.next_down()]);
        let convoys = [vec![vec![boat], vec![boat; MOST]], others, one_among(boat, boat - 0.5)].concat();
        Known { name: format!("{name}, for a convoy"), survey: survey.at(f32::NAN), convoys, due }
    };
    ways::known().into_iter().map(convoy).collect()
}

/// A survey, a convoy, ends and the lengths of the way slice and the work slice, to see which check refuses it where several would.
pub struct Several {
    /// The survey. Its own clearance is that of no boat.
    pub survey: Survey,
    /// The clearance of each boat.
    pub clearances: Vec<f32>,
    /// The start and the end.
    pub ends: [u32; 2],
    /// How many elements the way slice and the work slice have.
    pub rooms: [usize; 2],
    /// The refusal that is given, or 0.
    pub refusal: u32,
}

/// Each refusal in its order, 14, 15, 7, 21, 8, 18, 19, 20: those of one boat, and for each of them convoys that 21 or 8 refuses, unless the survey is
/// refused by itself. In most cases checks that stand after it would refuse too, in some it is the only one.
pub fn several() -> Vec<Several> {
    ways::several().into_iter().flat_map(|one| in_convoys(&one)).collect()
}

/// A question about one boat, asked for convoys that are lawful if she is, and for such that are not.
fn in_convoys(ways::Several { survey, ends, rooms, refusal }: &ways::Several) -> Vec<Several> {
    let own = survey.clearance;
    let case = |refusal, clearances| Several {
        survey: survey.clone().at(1.0),
        clearances,
        ends: *ends,
        rooms: *rooms,
        refusal,
    };
    let is_lawful = [0, 8, WAY_END, WAY_SLICE, NO_WAY].contains(refusal);
    let unless_before = |number| if is_lawful { number } else { *refusal };
    let mut cases: Vec<Several> =
        lawful_but_for(own).into_iter().map(|boats| case(*refusal, boats)).collect();
    cases.extend(uncounted(own).into_iter().map(|boats| case(unless_before(CONVOY), boats)));
    cases.extend(unlawful(own).into_iter().map(|boats| case(unless_before(8), boats)));
    cases
}

/// Convoys of 1 to 16 boats with one boat in the first, the last and a middle place. No other has a greater clearance.
fn lawful_but_for(boat: f32) -> Vec<Vec<f32>> {
    let placed = |count: usize, place: usize| {
        let mut clearances = vec![-1_048_576.0; count];
        clearances[place] = boat;
        clearances
    };
    [(1, 0), (2, 0), (2, 1), (3, 1), (MOST, 0), (MOST, 7), (MOST, MOST - 1)]
        .map(|(count, place)| placed(count, place))
        .to_vec()
}

/// Convoys of none or of more than 16, with an unlawful boat among them in some: at the head, at the end, and the only one beyond the 16th.
fn uncounted(boat: f32) -> Vec<Vec<f32>> {
    let with = |count: usize, place: usize| {
        let mut clearances = vec![boat; count];
        clearances[place] = f32::NAN;
        clearances
    };
    let most = MOST + 1;
    vec![vec![], vec![boat; most], vec![f32::NAN; most], with(most, 0), with(most, MOST), with(300, 1)]
}

/// Clearances that are not finite, or next beyond ±1,048,576 or far beyond.
const UNLAWFUL: [f32; 9] = [
    f32::NAN,
    -f32::NAN,
    f32::from_bits(0x7f80_0001),
    f32::INFINITY,
    f32::NEG_INFINITY,
    1_048_576.0f32.next_up(),
    -1_048_576.0f32.next_up(),
    f32::MAX,
    f32::MIN,
];

/// Convoys of 1, 2, 3 and 16 boats, of which one is unlawful, in every place.
fn unlawful(boat: f32) -> Vec<Vec<f32>> {
    let one_of = |count: usize, clearance: f32| {
        let mut clearances = vec![boat; count];
        clearances[0] = clearance;
        turned(&clearances)
    };
    let counts = [1, 2, 3, MOST];
    UNLAWFUL.into_iter().flat_map(|clearance| counts.map(|count| one_of(count, clearance)).concat()).collect()
}

#[cfg(test)]
mod tests {
    use std::collections::BTreeSet;

    use super::*;
    use crate::joints::Joints;
    use crate::refusals::of_convoy;

    /// What is said by hand is what all ways say, where few corners are wet.
    #[test]
    fn all_ways_say_the_same() {
        let mut compared = 0;
        for Known { name, survey, convoys, due } in known() {
            let joints = Joints::read(&survey);
            for clearances in convoys {
                let joints = joints.for_convoy(&survey, &clearances);
                let all_due = if joints.wet_count() > 8 { Vec::new() } else { joints.due() };
                if let Some(Due { way, work, .. }) = all_due.into_iter().find(|other| other.ends == due.ends)
                {
                    assert_eq!((&way, &work), (&due.way, &due.work), "{name}: {clearances:?}");
                    compared += 1;
                }
            }
        }
        assert!(compared > 300, "{compared} compared");
    }

    #[test]
    fn the_plain_checks_say_the_same() {
        let mut met = BTreeSet::new();
        for Known { name, survey, convoys, due } in known() {
            let refusal = if due.way.is_some() { 0 } else { NO_WAY };
            for clearances in convoys {
                let given = of_convoy(&survey, &clearances, due.ends.map(u32::from), [due.work.len(); 2]);
                assert_eq!(given, refusal, "{name}: {clearances:?}");
            }
            assert!(met.insert(name.clone()), "{name} is there twice");
        }
        for Several { survey, clearances, ends, rooms, refusal } in several() {
            let given = of_convoy(&survey, &clearances, ends, rooms);
            assert_eq!(given, refusal, "{clearances:?}, {ends:?}, {rooms:?}");
        }
    }
}
