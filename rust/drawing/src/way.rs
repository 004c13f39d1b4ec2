//! Ways over wet corners: document 02, "Can she get through?" and "A convoy on one way". Nothing here spreads from the start corner by corner: every joint
//! brings down the steps to its ends, again and again, until nothing changes; and of equally short ways whole ones are compared. One boat is a convoy of
//! one; no clearance of a convoy is picked out, since each corner is looked at for every boat.

use crate::checks;
use crate::edges::EdgeTrees;
use crate::refusal::Refusal;
use crate::survey::{Corner, Lawful};
use crate::Survey;

/// The result of showing a way in lent slices.
#[derive(Clone, Copy, Debug, PartialEq, Eq)]
pub struct Passage {
    /// 0 if a way is shown, else the refusal.
    pub number: u32,
    /// How many corners the way has; 0 with every refusal.
    pub corners: u32,
}

impl Passage {
    /// How many elements of the way slice and of the work slice were written, in a survey of so many corners.
    pub fn written(self, corners: usize) -> [usize; 2] {
        match self.number {
            0 => [self.corners as usize, corners],
            20 => [0, corners],
            _ => [0; 2],
        }
    }
}

/// A step that may be taken, from a wet corner to a wet one.
type Step = [usize; 2];

/// For each corner the fewest steps from the start; none if it is out of reach.
type Steps = Vec<Option<u16>>;

/// Every check but 20, then the work slice, and the way slice where there is a way. Gives back how many corners it has.
pub(crate) fn show(
    survey: Survey,
    clearances: &[f32],
    ends: [u32; 2],
    way: &mut [u16],
    work: &mut [u16],
) -> Result<usize, Refusal> {
    let survey = checks::read(survey)?;
    checks::convoy(clearances)?;
    let corners = survey.corners.len();
    let [start, end] = ends.map(|end| end as usize);
    checks::refuse_unless(start < corners && end < corners, Refusal::WayEnd)?;
    checks::refuse_unless(way.len() >= corners && work.len() >= corners, Refusal::WaySlice)?;
    let joints = joints(&survey, clearances);
    let mut steps = vec![None; corners];
    steps[start] = is_wet_at_all(survey.corners[start], clearances).then_some(0);
    while joints.iter().filter(|joint| brings_down(&mut steps, joint)).count() > 0 {}
    let one_more = |steps: &Option<u16>| steps.map_or(0, |steps| steps + 1);
    work.iter_mut().zip(&steps).for_each(|(element, steps)| *element = one_more(steps));
    let least = least_ways(&joints, &steps).swap_remove(end).ok_or(Refusal::NoWay)?;
    way[..least.len()].copy_from_slice(&least);
    Ok(least.len())
}

/// Whether a corner is wet at all of the clearances together.
fn is_wet_at_all(corner: Corner, clearances: &[f32]) -> bool {
    clearances.iter().all(|&clearance| corner.is_wet(clearance))
}

/// Both directions of every undivided edge whose ends are wet for every boat.
fn joints(survey: &Lawful, clearances: &[f32]) -> Vec<Step> {
    let trees = EdgeTrees::over(survey);
    let undivided = (0..trees.len()).map(|edge| trees[edge]).filter(|edge| edge.halves.is_none());
    let is_wet = |&corner: &usize| is_wet_at_all(survey.corners[corner], clearances);
    let wet = undivided.map(|edge| edge.ends).filter(|ends| ends.iter().all(is_wet));
    wet.flat_map(|[lower, upper]| [[lower, upper], [upper, lower]]).collect()
}

/// Takes a step, if its end is reached so at all, or in fewer steps than before.
fn brings_down(steps: &mut Steps, &[from, to]: &Step) -> bool {
    let Some(over) = steps[from].map(|steps| steps + 1) else { return false };
    let is_fewer = steps[to].is_none_or(|before| over < before);
    if is_fewer {
        steps[to] = Some(over);
    }
    is_fewer
}

/// To each corner in reach, of the ways with the fewest steps that which compares lowest as a list. Such a way is one to a corner a step nearer, and a
/// step more; those are all known when their turn comes, since steps rise.
fn least_ways(joints: &[Step], steps: &Steps) -> Vec<Option<Vec<u16>>> {
    let is_start = |corner: usize| steps[corner] == Some(0);
    let mut ways: Vec<_> =
        (0..steps.len()).map(|corner| is_start(corner).then(|| vec![corner as u16])).collect();
    let leads_on = |[from, to]: &&Step| steps[*from].is_some_and(|before| steps[*to] == Some(before + 1));
    let mut onward: Vec<&Step> = joints.iter().filter(leads_on).collect();
    onward.sort_by_key(|[_, to]| steps[*to]);
    for &[from, to] in onward {
        let nearer = ways[from].iter().flatten().copied();
        let way: Vec<u16> = nearer.chain([to as u16]).collect();
        if ways[to].as_ref().is_none_or(|other| way < *other) {
            ways[to] = Some(way);
        }
    }
    ways
}
