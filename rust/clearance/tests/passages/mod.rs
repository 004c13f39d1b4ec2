//! Ways by the compiled calls and by the independent ones, for one boat and for a convoy, and the surveys that they are asked about. Each survey comes with
//! its seed and with words that name the generator and the seed, for a failure to tell.

use std::collections::BTreeMap;

use clearance::Refusal;
use drawing::Passage;
use surveys::asked::{winding, Asked};
use surveys::damage::{damaged, Damaged};
use surveys::joints::Due;
use surveys::lent::{lend_for_way, WaySlices};
use surveys::refusals::{NO_WAY, ORDER};
use surveys::sized::{self, Kind};
use surveys::survey::Record;
use surveys::{document, generate, Survey};

use crate::how_many::{large, small};
use crate::tables::{independent, proved};

/// Who asks for a way.
#[derive(Clone, Copy, Debug)]
pub enum Boats<'a> {
    /// One boat, at a clearance.
    One(f32),
    /// A convoy, each boat at its clearance.
    #[allow(dead_code)] // the ways of one boat are compared without it
    Convoy(&'a [f32]),
}

impl Boats<'_> {
    fn compiled(self, survey: &Survey, [start, end]: [u32; 2], way: &mut [u16], work: &mut [u16]) -> Passage {
        let outcome = match self {
            Boats::One(clearance) => clearance::way(proved(survey), clearance, start, end, way, work),
            Boats::Convoy(boats) => clearance::convoy(proved(survey), boats, start, end, way, work),
        };
        match outcome {
            Ok(Some(corners)) => Passage { number: 0, corners: corners as u32 },
            Ok(None) => Passage { number: NO_WAY, corners: 0 },
            Err(refusal) => Passage { number: refusal.number(), corners: 0 },
        }
    }

    fn independent(
        self,
        survey: &Survey,
        [start, end]: [u32; 2],
        way: &mut [u16],
        work: &mut [u16],
    ) -> Passage {
        match self {
            Boats::One(clearance) => drawing::way(independent(survey), clearance, start, end, way, work),
            Boats::Convoy(boats) => drawing::convoy(independent(survey), boats, start, end, way, work),
        }
    }

    fn in_vectors(self, survey: &Survey, [start, end]: [u32; 2]) -> Result<clearance::Passage, Refusal> {
        match self {
            Boats::One(clearance) => clearance::way_to_vec(proved(survey), clearance, start, end),
            Boats::Convoy(boats) => clearance::convoy_to_vec(proved(survey), boats, start, end),
        }
    }
}

/// Makes a call with slices whose contents are by the seed. Only what is due may be touched.
fn lent(
    survey: &Survey,
    asked: Asked,
    seed: u64,
    what: &str,
    call: impl FnOnce(&mut [u16], &mut [u16]) -> Passage,
) -> WaySlices<Passage> {
    let corners = survey.corners.len() / Record::BYTES;
    let contents = Some(seed).filter(|seed| seed % 2 == 1);
    lend_for_way(asked.rooms, contents, what, |way, work| {
        let passage = call(way, work);
        (passage, passage.written(corners))
    })
}

/// What the compiled call returns, and both slices afterwards.
pub fn compiled(survey: &Survey, boats: Boats, asked: Asked, seed: u64, what: &str) -> WaySlices<Passage> {
    lent(survey, asked, seed, what, |way, work| boats.compiled(survey, asked.ends, way, work))
}

/// Asks both with slices of the same contents, by the seed; result and slices must be the same.
pub fn assert_same(survey: &Survey, boats: Boats, asked: Asked, seed: u64, what: &str) -> WaySlices<Passage> {
    let what = &format!("{what}, {boats:?}, {asked:?}");
    let shown = compiled(survey, boats, asked, seed, what);
    let expected =
        lent(survey, asked, seed, what, |way, work| boats.independent(survey, asked.ends, way, work));
    assert_eq!(shown, expected, "{what}");
    shown
}

/// Asks with slices that are just long enough; in vectors the answer is the same.
pub fn assert_in_vectors(
    survey: &Survey,
    boats: Boats,
    ends: [u32; 2],
    seed: u64,
    what: &str,
) -> WaySlices<Passage> {
    let corners = survey.corners.len() / Record::BYTES;
    let (result, way, work) = assert_same(survey, boats, Asked { ends, rooms: [corners; 2] }, seed, what);
    let steps = || work.iter().map(|&one_more| one_more.checked_sub(1)).collect();
    let expected = match result {
        Passage { number: 0, corners } => {
            Ok(clearance::Passage { way: Some(way[..corners as usize].to_vec()), steps: steps() })
        }
        Passage { number: NO_WAY, .. } => Ok(clearance::Passage { way: None, steps: steps() }),
        Passage { number, .. } => Err(Refusal::from_number(number).expect("a refusal")),
    };
    assert_eq!(boats.in_vectors(survey, ends), expected, "{what}, {boats:?}, {ends:?}: in vectors");
    (result, way, work)
}

/// The answer is the one that is due.
pub fn assert_due(survey: &Survey, boats: Boats, due: &Due, what: &str) {
    let (Passage { number, corners }, way, work) =
        assert_in_vectors(survey, boats, due.ends.map(u32::from), 0, what);
    due.assert_given([number, corners], &way, &work, what);
}

/// The largest corner table, at clearances at which all corners are wet: every number around its end, and around those that have the same low bits.
pub fn assert_any_numbers(boats: Boats) {
    let survey = document::most_corners();
    let last = (survey.corners.len() / Record::BYTES) as u32 - 1;
    assert_eq!(last, 4_871);
    let numbers =
        [0, 1, last - 1, last, last + 1, last + 2, 65_535, 65_536, 65_536 + last, 1 << 31, u32::MAX];
    for (start, end) in numbers.into_iter().flat_map(|start| numbers.map(|end| (start, end))) {
        let (result, ..) = assert_in_vectors(&survey, boats, [start, end], 1, "extreme numbers");
        assert_eq!(result.number, if start <= last && end <= last { 0 } else { 18 }, "from {start} to {end}");
    }
}

/// Hands damaged surveys to questions, which give back the numbers returned: each must be the refusal of the first check that finds damage. Stops if some
/// refusal was met too seldom.
pub fn assert_damaged(numbers: impl Fn(&Survey, u64, &str) -> Vec<u32>) {
    let mut met: BTreeMap<u32, u64> = ORDER.map(|refusal| (refusal, 0)).into();
    for seed in 0..small() {
        let Damaged { survey, refusal } = damaged(seed);
        let what = format!("damaged, seed {seed}");
        let given = numbers(&survey, seed, &what);
        let is_given = !given.is_empty() && given.iter().all(|&number| number == refusal);
        assert!(is_given, "{what}: {given:?}, and not {refusal}");
        met.entry(refusal).and_modify(|count| *count += 1);
    }
    println!("damaged, by refusal: {met:?}");
    assert!(small() < 1_000 || met.values().all(|&count| count > small() / 50), "by refusal: {met:?}");
}

/// A survey, the seed of the questions about it, and what a failure says of both.
pub struct Seeded {
    pub survey: Survey,
    pub seed: u64,
    pub what: String,
}

/// Small surveys with any outside and with a dry one: a pool that is not drawn serves as any other.
pub fn small_surveys() -> impl Iterator<Item = Seeded> {
    (0..small()).map(|seed| {
        let made = if seed % 2 == 0 { generate::small_survey } else { generate::small_mixed };
        Seeded { survey: made(seed, 8), seed, what: format!("small survey or small mixed, seed {seed}") }
    })
}

/// The same of every size.
pub fn surveys_of_every_size() -> impl Iterator<Item = Seeded> {
    (0..large()).map(|seed| {
        let made = if seed % 2 == 0 { generate::survey } else { generate::mixed };
        Seeded { survey: made(seed), seed, what: format!("survey or mixed, seed {seed}") }
    })
}

/// So many surveys of each kind and each of some sizes. No two are asked the same questions.
pub fn surveys_of_a_given_size(each: u64) -> impl Iterator<Item = Seeded> {
    let sizes = [1, 8, 64, 256].into_iter().flat_map(|splits| Kind::ALL.map(|kind| (splits, kind)));
    let surveys = sizes.flat_map(move |size| (0..each).map(move |made_from| (size, made_from)));
    (0..).zip(surveys).map(|(seed, ((splits, kind), made_from))| Seeded {
        survey: sized::survey(kind, splits, made_from),
        seed,
        what: format!("{kind:?} of {splits}, seed {made_from}, questions of seed {seed}"),
    })
}

/// So many surveys with a winding way, each with the ends of that.
pub fn winding_surveys(count: u64) -> impl Iterator<Item = (Seeded, [u32; 2])> {
    (0..count).map(|seed| {
        let (survey, ends) = winding(seed);
        (Seeded { survey, seed, what: format!("winding, seed {seed}") }, ends)
    })
}
