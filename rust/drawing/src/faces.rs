//! Small faces and their steps: document 01, "Steps and loops".

use crate::crossings::Crossings;
use crate::survey::{Lawful, Side};

/// A step from one point to another.
pub(crate) type Step = [u32; 2];

/// The steps of a face by its wet pattern. Corners 0 to 3 stand counter-clockwise as seen from outside; bit i
/// of the pattern is set if corner i is wet; edge i runs from corner i to the corner after it. Each step goes
/// from the edge before a run of wet corners to the edge behind it: so the wet corners lie to its right, and
/// with four odd edges each wet corner is cut off by its own step.
const STEPS: [&[[usize; 2]]; 16] = [
    &[],
    &[[3, 0]],
    &[[0, 1]],
    &[[3, 1]],
    &[[1, 2]],
    &[[3, 0], [1, 2]],
    &[[0, 2]],
    &[[3, 2]],
    &[[2, 3]],
    &[[2, 0]],
    &[[0, 1], [2, 3]],
    &[[2, 1]],
    &[[1, 3]],
    &[[1, 0]],
    &[[0, 3]],
    &[],
];

/// Calls `visit` with every face step of a leaf. `touching` is scratch space.
pub(crate) fn leaf_steps(
    crossings: &Crossings,
    leaf: usize,
    touching: &mut Vec<usize>,
    mut visit: impl FnMut(Step),
) {
    for side in Side::ALL {
        match split_across(crossings.survey, leaf, side) {
            None => side_steps(crossings, leaf, side).for_each(&mut visit),
            Some(cell) => {
                let towards = side.opposite();
                touching.clear();
                crossings.survey.leaves_along(cell, towards, touching);
                for &finer in touching.iter() {
                    // The finer leaf sees this face from the other side, where right and left change places.
                    side_steps(crossings, finer, towards).for_each(|[from, to]| visit([to, from]));
                }
            }
        }
    }
}

fn split_across(survey: &Lawful, leaf: usize, side: Side) -> Option<usize> {
    survey.across(leaf, side).filter(|&cell| survey.cells[cell].first_child.is_some())
}

/// The steps in a leaf's own side, as seen from outside that leaf.
fn side_steps<'a>(crossings: &'a Crossings, leaf: usize, side: Side) -> impl Iterator<Item = Step> + 'a {
    let ring = side.ring();
    let corners = &crossings.survey.cell_corners[leaf];
    let wet_bit = |i: usize| usize::from(crossings.is_wet(usize::from(corners[ring[i]]))) << i;
    let pattern: usize = (0..4).map(wet_bit).sum();
    let point = move |i: usize| ring_point(crossings, leaf, [ring[i], ring[(i + 1) % 4]]);
    STEPS[pattern].iter().filter_map(move |&[from, to]| Some([point(from)?, point(to)?]))
}

/// The point of the leaf's edge between two corner places that differ on one axis.
fn ring_point(crossings: &Crossings, leaf: usize, [one, other]: [usize; 2]) -> Option<u32> {
    let axis = (one ^ other).trailing_zeros() as usize;
    let lower = usize::from(crossings.survey.cell_corners[leaf][one & other]);
    let level = crossings.survey.cells[leaf].level;
    crossings.point_of(crossings.trees.find(axis, lower, level)?)
}

#[cfg(test)]
mod tests {
    use super::STEPS;

    fn wet(pattern: usize, corner: usize) -> bool {
        pattern >> (corner % 4) & 1 == 1
    }

    /// Walks on from the edge that a step leaves by: all corners up to the edge it goes to are wet, and the
    /// corners on both sides beyond are dry.
    #[test]
    fn each_step_cuts_off_one_run_of_wet_corners() {
        for (pattern, steps) in STEPS.iter().enumerate() {
            let mut cut_off = 0;
            for &[from, to] in steps.iter() {
                assert!(!wet(pattern, from), "pattern {pattern}: dry corner before the run");
                let run = (to + 4 - from) % 4;
                for corner in from + 1..=from + run {
                    assert!(wet(pattern, corner), "pattern {pattern}: wet corner in the run");
                    cut_off |= 1 << (corner % 4);
                }
                assert!(!wet(pattern, to + 1), "pattern {pattern}: dry corner behind the run");
            }
            let expected = if pattern == 15 { 0 } else { pattern };
            assert_eq!(cut_off, expected, "pattern {pattern}: every wet corner is cut off");
        }
    }

    #[test]
    fn two_opposite_wet_corners_give_two_steps() {
        assert_eq!(STEPS[0b0101].len(), 2);
        assert_eq!(STEPS[0b1010].len(), 2);
    }
}
