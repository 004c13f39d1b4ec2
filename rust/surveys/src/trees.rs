//! Octrees: random ones of the shapes that have undone drawings, fine cells against coarse ones; and ones of a given number of splits.

use std::collections::BTreeSet;

use crate::random::Random;
use crate::survey::{Cube, Octree, BOX_SIZE};

/// Which cells may be split further.
enum Aim {
    /// Those that touch a target on each axis that has one. With no target any cell, with one a plane, with
    /// two a line, with three a point.
    Targets([Option<Target>; 3]),
    /// Those on the diagonal of the box that starts from the corner in this place.
    Diagonal(usize),
}

/// A coordinate that cells touch. Leaving one side out refines the cells on the other side only, so that they
/// stand against coarse ones.
struct Target {
    at: u16,
    from_below: bool,
    from_above: bool,
}

impl Target {
    fn random(random: &mut Random) -> Target {
        let step = BOX_SIZE >> random.below(6);
        let at = step * random.below(usize::from(BOX_SIZE / step) + 1) as u16;
        let sides = random.below(3);
        Target { at, from_below: sides != 0 || at == BOX_SIZE, from_above: sides != 1 || at == 0 }
    }

    /// Whether a cell that reaches from `low` to `high` on this axis touches the target.
    fn touched(&self, low: u16, high: u16) -> bool {
        let inside = low < self.at && self.at < high;
        inside || (self.from_above && low == self.at) || (self.from_below && high == self.at)
    }
}

impl Aim {
    fn random(random: &mut Random) -> Aim {
        if random.one_in(8) {
            return Aim::Diagonal(random.below(8));
        }
        let targets = random.below(4);
        let first = random.below(3);
        let mut aim = [None, None, None];
        for axis in first..first + targets {
            aim[axis % 3] = Some(Target::random(random));
        }
        Aim::Targets(aim)
    }

    fn touched(&self, cube: Cube) -> bool {
        match self {
            Aim::Targets(targets) => (0..3).all(|axis| {
                let low = cube.low[axis];
                targets[axis].as_ref().is_none_or(|target| target.touched(low, low + cube.size))
            }),
            Aim::Diagonal(start) => {
                let from_start = |axis: usize| match start >> axis & 1 {
                    0 => cube.low[axis],
                    _ => BOX_SIZE - cube.size - cube.low[axis],
                };
                from_start(0) == from_start(1) && from_start(1) == from_start(2)
            }
        }
    }
}

/// A random octree of at most so many splits.
pub(crate) fn octree(random: &mut Random, most_splits: usize) -> Octree {
    let mut growth = Growth { split: BTreeSet::new(), most_splits };
    let aims = random.pick(&[1, 1, 1, 2, 3]);
    for _ in 0..aims {
        let aim = Aim::random(random);
        growth.refine(random, aim);
    }
    Octree::new(|_, cube| growth.split.contains(&cube))
}

/// The octree of so many splits in which the leaf of lowest rank is split first. There must be leaves enough.
pub(crate) fn ranked<Rank: Ord>(splits: usize, mut rank: impl FnMut(Cube) -> Rank) -> Octree {
    let mut split = BTreeSet::new();
    let mut leaves = BTreeSet::from([(rank(Cube::BOX), Cube::BOX)]);
    while split.len() < splits {
        let (_, cube) = leaves.pop_first().expect("a leaf that can be split is left");
        if cube.size > 1 {
            split.insert(cube);
            leaves.extend(cube.children().into_iter().map(|child| (rank(child), child)));
        }
    }
    Octree::new(|_, cube| split.contains(&cube))
}

struct Growth {
    split: BTreeSet<Cube>,
    most_splits: usize,
}

impl Growth {
    /// Splits leaves that the aim allows until the most splits are reached or none is left; now and then it
    /// stops before.
    fn refine(&mut self, random: &mut Random, aim: Aim) {
        let deepest_first = random.one_in(3);
        let stops_early = random.one_in(3);
        let mut leaves = self.leaves(&aim);
        while self.split.len() < self.most_splits && !leaves.is_empty() {
            if stops_early && random.one_in(1 + self.most_splits) {
                break;
            }
            let choices = if deepest_first { leaves.len().min(8) } else { leaves.len() };
            let cube = leaves.swap_remove(leaves.len() - 1 - random.below(choices));
            self.split.insert(cube);
            leaves.extend(cube.children().into_iter().filter(|&child| may_split(child, &aim)));
        }
    }

    fn leaves(&self, aim: &Aim) -> Vec<Cube> {
        let octree = Octree::new(|_, cube| self.split.contains(&cube));
        let leaves = octree.cubes.into_iter().zip(octree.split).filter(|&(_, split)| !split);
        leaves.map(|(cube, _)| cube).filter(|&cube| may_split(cube, aim)).collect()
    }
}

fn may_split(cube: Cube, aim: &Aim) -> bool {
    cube.size > 1 && aim.touched(cube)
}
