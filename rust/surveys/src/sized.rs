//! Surveys of a given number of splits, to time a drawing by. All have a dry outside, since others are not drawn.

use std::cmp::Reverse;

use crate::long_loop::long_loop_of;
use crate::random::Random;
use crate::soundings::distance;
use crate::survey::{on_outer_face, Cube, Octree};
use crate::trees::ranked;
use crate::Survey;

/// The middle of the box on each axis: the height of the plane, and the middle of the ball.
const MIDDLE: u16 = 512;

/// The radius of the ball.
const RADIUS: u16 = 300;

/// A shape of survey.
#[derive(Clone, Copy, Debug, PartialEq, Eq)]
pub enum Kind {
    /// Any leaf is split, and soundings are noise: about every second edge inside the box is odd.
    Random,
    /// The leaves nearest to one corner of the box are split, down to depth 10; soundings are noise.
    Corner,
    /// The leaves that stand on a plane are split, the largest first, so that fine cells lie on coarse ones;
    /// the surface is rough and near the plane, and closes near the box's sides and bottom, which are dry.
    Plane,
    /// The leaves that a ball's surface goes through are split, the largest first; soundings are the
    /// distance from that surface.
    Ball,
    /// One leaf has as long a loop as the splits allow.
    LongLoop,
}

impl Kind {
    /// All kinds.
    pub const ALL: [Kind; 5] = [Kind::Random, Kind::Corner, Kind::Plane, Kind::Ball, Kind::LongLoop];
}

/// The survey of a kind with so many splits, from 1 to 256. It follows from its seed.
pub fn survey(kind: Kind, splits: usize, seed: u64) -> Survey {
    let random = &mut Random::new(seed);
    match kind {
        Kind::Random => {
            let octree = ranked(splits, |_| random.bits());
            noisy(random, &octree)
        }
        Kind::Corner => noisy(random, &ranked(splits, |cube| cube.low.into_iter().max())),
        Kind::Plane => {
            let octree = ranked(splits, |cube| (!stands_on_plane(cube), Reverse(cube.size)));
            Survey::new(&octree, |place| {
                let [_, _, z] = place.map(f32::from);
                in_basin(place, f32::from(MIDDLE) + noise(random) / 4.0 + 10.0 - z)
            })
        }
        Kind::Ball => {
            let octree = ranked(splits, |cube| (!meets_ball(cube), Reverse(cube.size)));
            Survey::new(&octree, ball_distance)
        }
        Kind::LongLoop => long_loop_of(seed, splits),
    }
}

fn noisy(random: &mut Random, octree: &Octree) -> Survey {
    Survey::new(octree, |place| in_basin(place, noise(random)))
}

/// A sounding, turned where need be: outer faces are dry, so that the survey is drawn, and the centre is wet, so that
/// there is a surface even after one split, when no other corner is inside.
fn in_basin(place: [u16; 3], sounding: f32) -> f32 {
    if on_outer_face(place) {
        -sounding.abs()
    } else if place == [MIDDLE; 3] {
        sounding.abs()
    } else {
        sounding
    }
}

/// A number from −100 to 100.
fn noise(random: &mut Random) -> f32 {
    random.below(2_000_001) as f32 / 10_000.0 - 100.0
}

fn stands_on_plane(cube: Cube) -> bool {
    cube.low[2] == MIDDLE
}

fn ball_distance(place: [u16; 3]) -> f32 {
    f32::from(RADIUS) - distance([MIDDLE; 3], place)
}

/// Whether the ball's surface may go through a cell: its middle is no further from it than its corners are.
fn meets_ball(cube: Cube) -> bool {
    let middle = cube.low.map(|at| at + cube.size / 2);
    ball_distance(middle).abs() <= distance(middle, cube.low)
}

#[cfg(test)]
mod tests {
    use super::*;
    use crate::plain::{octree, Edge, Plain};
    use crate::refusals::of_drawing;

    fn surveys() -> impl Iterator<Item = (Kind, usize, Survey)> {
        let sizes = [1, 8, 64, 256];
        Kind::ALL
            .into_iter()
            .flat_map(move |kind| sizes.map(|splits| (kind, splits, survey(kind, splits, 1))))
    }

    #[test]
    fn they_are_drawn_and_have_the_splits_asked_for() {
        for (kind, splits, survey) in surveys() {
            assert_eq!(survey.cells.len(), 4 * (1 + 8 * splits), "{kind:?} of {splits}");
            assert_eq!(of_drawing(&survey), 0, "{kind:?} of {splits}");
            assert!(!Plain::read(&survey).carriers.is_empty(), "{kind:?} of {splits} has no points");
        }
    }

    #[test]
    fn about_every_second_edge_inside_noise_is_odd() {
        for (kind, splits, survey) in surveys() {
            if !matches!((kind, splits), (Kind::Random | Kind::Corner, 64..)) {
                continue;
            }
            let plain = Plain::read(&survey);
            let is_inside = |edge: &&Edge| !on_outer_face(edge.low()) && !on_outer_face(edge.high());
            let inside: Vec<&Edge> = plain.edges.iter().filter(is_inside).collect();
            let odd = inside.iter().filter(|&&&edge| plain.is_odd(edge)).count();
            let percent = 100 * odd / inside.len();
            assert!((45..=55).contains(&percent), "{kind:?} of {splits}: {percent} per cent");
        }
    }

    #[test]
    fn a_corner_is_refined_to_full_depth() {
        let cubes = octree(&survey(Kind::Corner, 64, 1).cells).cubes;
        assert!(cubes.iter().any(|cube| cube.low == [0; 3] && cube.size == 1));
    }
}
