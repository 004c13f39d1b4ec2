//! Reference points to reckon the space inside a drawing from: document 02, "Water in the pool".

use crate::random::Random;
use crate::survey::{Cube, BOX_SIZE};

/// So many points follow from the seed.
const RANDOM: usize = 4;

/// Points of the box: its eight corners, its middle, and some that follow from the seed, each coordinate 0, 1,024 or any
/// between.
pub fn of_box(seed: u64) -> Vec<[u32; 3]> {
    let random = &mut Random::new(seed);
    let coordinate = |random: &mut Random| match random.below(4) {
        0 => 0,
        1 => u32::from(BOX_SIZE),
        _ => random.below(usize::from(BOX_SIZE) + 1) as u32,
    };
    let corners = Cube::BOX.corners().map(|corner| corner.map(u32::from));
    let any = (0..RANDOM).map(|_| [0; 3].map(|_: u32| coordinate(random)));
    corners.into_iter().chain([[512; 3]]).chain(any).collect()
}

/// Points above 1,024 on one axis or on all, by 1 and by far: 65,536 is 0 in 16 bits, and sixteen times 268,435,456 is 0
/// in 32.
pub fn beyond_box() -> Vec<[u32; 3]> {
    let beyond = [1_025, 65_536, 268_435_456, u32::MAX];
    let on_axis = |axis: usize, others: u32, far: u32| {
        let mut point = [others; 3];
        point[axis] = far;
        point
    };
    let on_one = (0..3).flat_map(|axis| beyond.map(|far| on_axis(axis, 0, far)));
    let beside_the_greatest = (0..3).map(|axis| on_axis(axis, 1_024, 1_025));
    on_one.chain(beside_the_greatest).chain(beyond.map(|far| [far; 3])).collect()
}

#[cfg(test)]
mod tests {
    use super::*;

    fn is_in_box(point: &[u32; 3]) -> bool {
        point.iter().all(|&coordinate| coordinate <= 1_024)
    }

    #[test]
    fn points_are_in_the_box_or_beyond_it() {
        for seed in 0..100 {
            assert!(of_box(seed).iter().all(is_in_box), "seed {seed}");
        }
        assert!(!beyond_box().iter().any(is_in_box));
    }

    /// A check that leaves an axis out, or a reckoning that takes corners from different references, meets points that show it.
    #[test]
    fn points_show_every_axis() {
        let seen: Vec<[u32; 3]> = (0..100).flat_map(of_box).collect();
        for [one, other] in [[0, 1], [1, 2], [2, 0]] {
            assert!(seen.iter().filter(|point| point[one] != point[other]).count() > 700);
            let inside = |point: &&[u32; 3]| (1..1_024).contains(&point[one]) && point[other] == 1_024;
            assert!(seen.iter().filter(inside).count() > 20);
            assert!(beyond_box().iter().any(|point| point[one] > 1_024 && point[other] <= 1_024));
        }
    }
}
