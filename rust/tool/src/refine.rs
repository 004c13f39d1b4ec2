//! The survey of a shape that is known by its distance function: an octree that is finest where the surface bends, and a sounding at every corner.

use std::collections::{BTreeSet, BinaryHeap};

use surveys::survey::{Cube, Octree, BOX_SIZE};
use surveys::Survey;

/// The most splits that a cell table of 2,049 records holds. With so many splits there are at most 4,872 corners.
pub const MOST_SPLITS: usize = 256;

/// Soundings are multiples of 1 / 64, as an instrument reads them: the same bytes on every machine.
const READINGS: f64 = 64.0;

/// How finely a shape is sounded.
#[derive(Clone, Copy, Debug)]
pub struct Fineness {
    /// Cells larger than this are split wherever the surface may pass.
    pub coarsest: u16,
    /// Cells of this size are not split.
    pub finest: u16,
    /// Cells whose soundings give the distance inside them this well are not split.
    pub tolerance: f64,
    /// At most so many cells are split, the worst first.
    pub most_splits: usize,
    /// Whether leaves at the surface have at most twice the size of the leaves at the surface that touch their sides. Without it, cells of any sizes stand
    /// side by side.
    pub graded: bool,
}

/// The survey at clearance 0 of the space in which `distance` is above 0. A part of the space so thin that it lies between the corners of cells may be
/// missed.
pub fn survey(distance: impl Fn([f64; 3]) -> f64, fineness: Fineness) -> Survey {
    let split = refined(&distance, fineness);
    Survey::new(&Octree::new(|_, cube| split.contains(&cube)), |place| {
        sounding(distance(place.map(f64::from)))
    })
}

/// The distance as an instrument reads it.
pub fn sounding(distance: f64) -> f32 {
    ((distance * READINGS).round() / READINGS) as f32
}

/// A leaf that waits to be split. The worst is the greatest.
#[derive(PartialEq)]
struct Waiting {
    error: f64,
    cube: Cube,
}

impl Eq for Waiting {}

impl PartialOrd for Waiting {
    fn partial_cmp(&self, other: &Waiting) -> Option<std::cmp::Ordering> {
        Some(self.cmp(other))
    }
}

impl Ord for Waiting {
    fn cmp(&self, other: &Waiting) -> std::cmp::Ordering {
        self.error.total_cmp(&other.error).then(self.cube.cmp(&other.cube))
    }
}

/// The cells to split.
fn refined(distance: &impl Fn([f64; 3]) -> f64, fineness: Fineness) -> BTreeSet<Cube> {
    let waiting = |cube| Waiting { error: error(distance, fineness, cube), cube };
    let mut leaves = BinaryHeap::from([waiting(Cube::BOX)]);
    let mut split = BTreeSet::new();
    while let Some(Waiting { error, cube }) = leaves.pop() {
        if error <= fineness.tolerance || split.len() == fineness.most_splits {
            break;
        }
        let larger = if fineness.graded { larger_beside(&split, cube) } else { Vec::new() };
        // A larger cell beside this one comes first, and this one again after it.
        let larger = larger.into_iter().filter(|&beside| passes(&lattice(distance, beside)));
        let first: Vec<Waiting> = larger.map(|cube| Waiting { error: 2.0 * error, cube }).collect();
        if first.is_empty() {
            split.insert(cube);
            leaves.extend(cube.children().into_iter().map(waiting));
        } else {
            leaves.retain(|leaf| first.iter().all(|other| other.cube != leaf.cube));
            leaves.extend(first);
            leaves.push(Waiting { error, cube });
        }
    }
    split
}

/// The leaves larger than a cell that touch its sides.
fn larger_beside(split: &BTreeSet<Cube>, cube: Cube) -> Vec<Cube> {
    let beside = (0..6).filter_map(|side| {
        let mut low = cube.low;
        let axis = side / 2;
        low[axis] = if side % 2 == 0 { low[axis].checked_sub(cube.size)? } else { low[axis] + cube.size };
        (low[axis] < BOX_SIZE).then_some(low)
    });
    let larger = |low: [u16; 3]| {
        let mut around = Cube::BOX;
        while split.contains(&around) && around.size > cube.size {
            let size = around.size / 2;
            around = Cube { low: low.map(|coordinate| coordinate / size * size), size };
        }
        (around.size > cube.size).then_some(around)
    };
    beside.filter_map(larger).collect()
}

/// The distances at the corners of a cell's children: at its corners, and half-way between them.
fn lattice(distance: &impl Fn([f64; 3]) -> f64, cube: Cube) -> [f64; 27] {
    let half = f64::from(cube.size) / 2.0;
    std::array::from_fn(|number| {
        let halves = halves(number);
        distance([0, 1, 2].map(|axis| f64::from(cube.low[axis]) + f64::from(halves[axis]) * half))
    })
}

/// Where a place of the lattice is: so many half edges up on each axis.
fn halves(number: usize) -> [u8; 3] {
    [1, 3, 9].map(|step| (number / step % 3) as u8)
}

/// Whether the surface is seen to pass: some distances are wet and some are dry.
fn passes(lattice: &[f64; 27]) -> bool {
    let wet = lattice.iter().filter(|&&distance| distance > 0.0).count();
    0 < wet && wet < lattice.len()
}

/// How far the distances at the corners of a cell are from telling those near the surface inside it, on the lattice. 0 if the surface is not seen to pass
/// there, or if the cell is fine enough.
fn error(distance: &impl Fn([f64; 3]) -> f64, fineness: Fineness, cube: Cube) -> f64 {
    if cube.size <= fineness.finest {
        return 0.0;
    }
    let size = f64::from(cube.size);
    let lattice = lattice(distance, cube);
    let passes = passes(&lattice);
    let may_pass = passes || lattice[13].abs() <= size * 3f64.sqrt() / 2.0;
    if may_pass && cube.size > fineness.coarsest {
        return f64::from(BOX_SIZE) * size;
    }
    let pairs = (0..27).map(|number| [lattice[number], between(&lattice, halves(number))]);
    let near = |pair: &[f64; 2]| passes && pair.iter().any(|distance| distance.abs() <= size / 4.0);
    pairs.filter(near).map(|[distance, told]| (distance - told).abs()).fold(0.0, f64::max)
}

/// What the corners of a cell tell of a place of its lattice: the trilinear interpolation there.
fn between(lattice: &[f64; 27], halves: [u8; 3]) -> f64 {
    let part = |place: usize| {
        let weights = [0, 1, 2].map(|axis| match place >> axis & 1 {
            0 => f64::from(2 - halves[axis]) / 2.0,
            _ => f64::from(halves[axis]) / 2.0,
        });
        let corner =
            [1, 3, 9].iter().enumerate().map(|(axis, step)| 2 * (place >> axis & 1) * step).sum::<usize>();
        weights.iter().product::<f64>() * lattice[corner]
    };
    (0..8).map(part).sum()
}

#[cfg(test)]
mod tests {
    use super::*;
    use surveys::survey::Record;
    use surveys::{plain, refusals};

    const FINENESS: Fineness =
        Fineness { coarsest: 256, finest: 16, tolerance: 2.0, most_splits: 200, graded: false };

    /// A ball of radius 300 in the middle of the box.
    fn ball(place: [f64; 3]) -> f64 {
        300.0 - place.map(|coordinate| (coordinate - 512.0).powi(2)).iter().sum::<f64>().sqrt()
    }

    fn slope(place: [f64; 3]) -> f64 {
        0.6 * place[0] + 0.8 * place[2] - 500.0
    }

    fn leaves(survey: &Survey) -> Vec<Cube> {
        let octree = plain::octree(&survey.cells);
        octree
            .cubes
            .into_iter()
            .zip(octree.split)
            .filter(|&(_, split)| !split)
            .map(|(cube, _)| cube)
            .collect()
    }

    #[test]
    fn corners_hold_the_distance() {
        let survey = survey(ball, FINENESS);
        assert_eq!(refusals::first(&survey), 0);
        for Record { place, sounding, .. } in plain::records(&survey.corners) {
            let distance = ball(place.map(f64::from));
            assert!((f64::from(sounding) - distance).abs() <= 0.5 / READINGS + 1e-4, "{place:?}");
        }
    }

    #[test]
    fn only_cells_at_the_surface_are_split() {
        let survey = survey(ball, FINENESS);
        let octree = plain::octree(&survey.cells);
        let split =
            octree.cubes.iter().zip(&octree.split).filter(|&(_, split)| *split).map(|(cube, _)| *cube);
        let mut count = 0;
        for cube in split {
            let centre = cube.low.map(|low| f64::from(low) + f64::from(cube.size) / 2.0);
            assert!(ball(centre).abs() <= f64::from(cube.size) * 3f64.sqrt() / 2.0, "{cube:?}");
            count += 1;
        }
        assert!((9..=FINENESS.most_splits).contains(&count), "{count}");
    }

    #[test]
    fn a_plane_needs_no_fine_cells() {
        let sizes: BTreeSet<u16> = leaves(&survey(slope, FINENESS)).iter().map(|leaf| leaf.size).collect();
        assert_eq!(sizes.first(), Some(&256));
    }

    #[test]
    fn the_surface_passes_on_the_wet_side_of_ground_awash() {
        let wall = |[x, _, _]: [f64; 3]| 512.0 - x;
        let passes_from = |x| passes(&lattice(&wall, Cube { low: [x, 0, 0], size: 512 }));
        assert!(passes_from(0));
        assert!(!passes_from(512));
    }

    #[test]
    fn limits_are_kept() {
        let sharp = Fineness { tolerance: 0.0, ..FINENESS };
        let by_count = survey(ball, Fineness { most_splits: 40, ..sharp });
        assert_eq!(by_count.cells.len(), 4 * (1 + 8 * 40));
        let by_size = leaves(&survey(ball, Fineness { finest: 128, most_splits: MOST_SPLITS, ..sharp }));
        assert_eq!(by_size.iter().map(|leaf| leaf.size).min(), Some(128));
        let full = survey(ball, Fineness { finest: 1, most_splits: MOST_SPLITS, ..sharp });
        assert_eq!(full.cells.len(), 8_196);
        assert_eq!(refusals::first(&full), 0);
    }

    #[test]
    fn graded_cells_at_the_surface_differ_by_one_halving() {
        let shape = crate::shapes::lock_chamber;
        let unequal = |graded| {
            let leaves = leaves(&survey(shape, Fineness { graded, ..FINENESS }));
            let at_surface: Vec<Cube> =
                leaves.into_iter().filter(|&leaf| passes(&lattice(&shape, leaf))).collect();
            let touch = |one: &Cube, other: &Cube| {
                let gaps = [0, 1, 2].map(|axis| {
                    let low = one.low[axis].max(other.low[axis]);
                    i32::from((one.low[axis] + one.size).min(other.low[axis] + other.size)) - i32::from(low)
                });
                gaps.iter().filter(|&&gap| gap > 0).count() == 2 && gaps.contains(&0)
            };
            let far =
                |one: &&Cube| at_surface.iter().any(|other| one.size > 2 * other.size && touch(one, other));
            at_surface.iter().filter(far).count()
        };
        assert_eq!(unequal(true), 0);
        assert!(unequal(false) > 0);
    }

    #[test]
    fn between_corners_is_their_mean() {
        let bilinear = |[x, y, z]: [f64; 3]| 8.0 * x + 16.0 * y + 32.0 * z + 0.5 * x * y * z;
        let lattice = lattice(&bilinear, Cube { low: [0; 3], size: 2 });
        for number in 0..27 {
            assert_eq!(between(&lattice, halves(number)), lattice[number], "{number}");
        }
        let mut bent = lattice;
        bent[13] += 1.0;
        assert_eq!(bent[13] - between(&bent, [1, 1, 1]), 1.0);
    }
}
