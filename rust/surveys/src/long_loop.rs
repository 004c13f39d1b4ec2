//! A leaf with very many points on one loop, which no small loop buffer holds.

use std::cmp::Reverse;
use std::collections::BTreeSet;

use crate::random::Random;
use crate::survey::Cube;
use crate::trees::ranked;
use crate::Survey;

/// The leaf reaches from 0 to this on each axis.
const LEAF_END: u16 = 512;

/// A survey in which one leaf has a loop of many hundred points: three of its sides meet the finest cells
/// that 256 splits allow, and on them the wet corners, joined along edges, make a random tree.
pub fn long_loop(seed: u64) -> Survey {
    long_loop_of(seed, 256)
}

/// Such a survey with fewer splits, from 1 on; the loop is shorter then.
pub(crate) fn long_loop_of(seed: u64, splits: usize) -> Survey {
    let wet = wet_tree(&mut Random::new(seed), finest(splits));
    let octree = ranked(splits, |cube| (!is_against_leaf(cube), Reverse(cube.size)));
    Survey::new(&octree, |place| if wet.contains(&place) { 1.0 } else { -1.0 })
}

fn is_against_leaf(cube: Cube) -> bool {
    let mut low = cube.low;
    low.sort_unstable();
    low[1] < LEAF_END && low[2] == LEAF_END
}

/// The size of the cells that meet the three sides all over after so many splits, the largest first: the
/// first split gives three cells against the leaf, and each split of such a cell four.
fn finest(splits: usize) -> u16 {
    let mut size = LEAF_END;
    let mut against_leaf = 3;
    let mut needed = 1 + against_leaf;
    while needed <= splits {
        size /= 2;
        against_leaf *= 4;
        needed += against_leaf;
    }
    size
}

/// Corners on the three sides of the leaf, off the box's outer faces: a corner joins the tree if it has one
/// neighbour in it, so that no ring of wet corners parts the dry ones.
fn wet_tree(random: &mut Random, finest: u16) -> BTreeSet<[u16; 3]> {
    let mut tree = BTreeSet::from([[LEAF_END; 3]]);
    let mut waiting = neighbours([LEAF_END; 3], finest);
    while !waiting.is_empty() {
        let place = waiting.swap_remove(random.below(waiting.len()));
        let joined = neighbours(place, finest).iter().filter(|neighbour| tree.contains(*neighbour)).count();
        if joined == 1 && tree.insert(place) {
            waiting.extend(neighbours(place, finest));
        }
    }
    tree
}

/// The corners next to one on the leaf's three sides, off the box's outer faces.
fn neighbours(place: [u16; 3], finest: u16) -> Vec<[u16; 3]> {
    let moved = |axis: usize, up: bool| {
        let mut next = place;
        next[axis] = if up { place[axis] + finest } else { place[axis] - finest };
        next
    };
    let on_sides =
        |place: &[u16; 3]| place.contains(&LEAF_END) && place.iter().all(|&at| 0 < at && at <= LEAF_END);
    (0..3).flat_map(|axis| [moved(axis, false), moved(axis, true)]).filter(on_sides).collect()
}
