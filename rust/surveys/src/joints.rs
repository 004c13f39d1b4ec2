//! Which corners are joined, and all ways over them: document 02, "Can she get through?" and "A convoy on one way", in its own words, for lawful surveys.
//! Corners go by record number. Nothing here is fast.

use std::collections::{BTreeSet, HashMap};

use crate::plain::{records, soundings, Plain};
use crate::refusals::NO_WAY;
use crate::Survey;

/// What is due of a question about two corners.
#[derive(Clone, Debug)]
pub struct Due {
    /// The start and the end.
    pub ends: [u16; 2],
    /// The way, if there is one.
    pub way: Option<Vec<u16>>,
    /// For each corner its fewest steps from the start plus one, or 0 if it is out of reach.
    pub work: Vec<u16>,
}

impl Due {
    /// Stops unless a call gave this number and this count of corners, and left this in slices that are just long enough.
    pub fn assert_given(&self, [number, corners]: [u32; 2], way: &[u16], work: &[u16], what: &str) {
        let [start, end] = self.ends;
        let what = &format!("{what}, from {start} to {end}");
        assert_eq!(number, if self.way.is_some() { 0 } else { NO_WAY }, "{what}");
        assert_eq!(&way[..corners as usize], self.way.as_deref().unwrap_or_default(), "{what}: way");
        assert_eq!(work, self.work, "{what}: work");
    }
}

/// The corners of a survey and the undivided edges between them.
pub struct Joints {
    /// Whether each corner is wet.
    pub wet: Vec<bool>,
    /// The corners, wet or dry, that an undivided edge joins to each.
    pub joined: Vec<Vec<u16>>,
}

impl Joints {
    /// Reads a lawful survey.
    pub fn read(survey: &Survey) -> Joints {
        let plain = Plain::read(survey);
        let places: Vec<[u16; 3]> = records(&survey.corners).map(|record| record.place).collect();
        let numbers: HashMap<[u16; 3], u16> = places.iter().copied().zip(0..).collect();
        let mut joined = vec![Vec::new(); places.len()];
        for &edge in plain.edges.iter().filter(|&&edge| !plain.is_divided(edge)) {
            let [low, high] = [edge.low(), edge.high()].map(|end| numbers[&end]);
            joined[usize::from(low)].push(high);
            joined[usize::from(high)].push(low);
        }
        Joints { wet: places.iter().map(|&place| plain.is_wet(place)).collect(), joined }
    }

    /// The same corners for a convoy: each is wet if it is wet at all of the clearances together.
    pub fn for_convoy(&self, survey: &Survey, clearances: &[f32]) -> Joints {
        let is_wet_for_all = |sounding: f32| clearances.iter().all(|&clearance| sounding > clearance);
        let wet = soundings(survey).into_iter().map(is_wet_for_all).collect();
        Joints { wet, joined: self.joined.clone() }
    }

    /// How many corners are wet.
    pub fn wet_count(&self) -> usize {
        self.wet.iter().filter(|&&wet| wet).count()
    }

    fn is_wet(&self, corner: u16) -> bool {
        self.wet[usize::from(corner)]
    }

    /// The wet corners joined to one.
    fn onward(&self, corner: u16) -> impl Iterator<Item = u16> + '_ {
        self.joined[usize::from(corner)].iter().copied().filter(|&next| self.is_wet(next))
    }

    /// The corners to which a way leads from a start.
    pub fn reach(&self, start: u16) -> BTreeSet<u16> {
        let mut reach: BTreeSet<u16> = Some(start).filter(|&start| self.is_wet(start)).into_iter().collect();
        loop {
            let further: BTreeSet<u16> = reach.iter().flat_map(|&corner| self.onward(corner)).collect();
            if further.is_subset(&reach) {
                return reach;
            }
            reach.extend(further);
        }
    }

    /// Every way from a start on which no corner comes twice. There are very many, unless few corners are wet.
    pub fn all_ways(&self, start: u16) -> Vec<Vec<u16>> {
        let mut ways: Vec<Vec<u16>> = Some(vec![start]).filter(|_| self.is_wet(start)).into_iter().collect();
        let mut longest = 0..ways.len();
        while !longest.is_empty() {
            let longer = |way: &Vec<u16>| {
                let next = self.onward(way[way.len() - 1]).filter(|next| !way.contains(next));
                next.map(|next| [&way[..], &[next]].concat()).collect::<Vec<_>>()
            };
            let further: Vec<Vec<u16>> = ways[longest].iter().flat_map(longer).collect();
            longest = ways.len()..ways.len() + further.len();
            ways.extend(further);
        }
        ways
    }

    /// What is due of every two wet corners, and of a dry one, in order: of all ways to the end those with the fewest steps, and of these the one with the
    /// lowest number at the first place where they differ.
    pub fn due(&self) -> Vec<Due> {
        let numbers = 0..self.wet.len() as u16;
        let (wet, dry): (Vec<u16>, Vec<u16>) = numbers.clone().partition(|&corner| self.is_wet(corner));
        let some: Vec<u16> = wet.into_iter().chain(dry.first().copied()).collect();
        let from = |&start: &u16| {
            let ways = self.all_ways(start);
            let work: Vec<u16> =
                numbers.clone().map(|end| shortest(&ways, end).map_or(0, |way| way.len() as u16)).collect();
            let due = |&end: &u16| Due {
                ends: [start, end],
                way: shortest(&ways, end).cloned(),
                work: work.clone(),
            };
            some.iter().map(due).collect::<Vec<Due>>()
        };
        some.iter().flat_map(from).collect()
    }

    /// Whether another way is as short as this one: some corner of it is joined to two that are one step nearer to the start. For each corner its fewest
    /// steps plus one are given.
    pub fn is_tied(&self, way: &[u16], work: &[u16]) -> bool {
        let steps = |corner: u16| work[usize::from(corner)];
        let nearer =
            |corner: u16| self.onward(corner).filter(|&next| steps(next) + 1 == steps(corner)).count();
        way.iter().any(|&corner| nearer(corner) > 1)
    }
}

fn shortest(ways: &[Vec<u16>], end: u16) -> Option<&Vec<u16>> {
    let to_end = ways.iter().filter(|way| way.last() == Some(&end));
    to_end.min_by(|one, other| one.len().cmp(&other.len()).then_with(|| one.cmp(other)))
}
