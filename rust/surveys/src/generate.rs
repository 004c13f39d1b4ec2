//! Random lawful surveys. A survey follows from its seed alone, and for the small ones from the most splits too.
//!
//! With any outside nearly all are refused for drawing, since some corner on an outer face is wet; with a dry outside
//! none is. [`mixed`] and [`small_mixed`] have both, for comparing drawings. Every second survey has amendments, but for
//! those of long loops; whatever is said of a survey's soundings is said of those in force.

use std::iter::repeat_with;
use std::ops::Range;

use crate::amendments::resounded;
pub use crate::long_loop::long_loop;
use crate::random::Random;
use crate::soundings::Soundings;
use crate::survey::{on_outer_face, Octree, BOX_SIZE};
use crate::trees::octree;
use crate::Survey;

/// The most splits that a cell table can hold.
const MOST_SPLITS: usize = 256;

/// What stands on the box's outer faces.
#[derive(Clone, Copy)]
enum Outside {
    /// Soundings as inside.
    Any,
    /// Dry ones, of which about half are awash.
    Dry,
    /// Dry ones but at this place.
    DryBut([u16; 3]),
}

/// A random survey with any outside. Most are small; about one in sixteen has up to 256 splits.
pub fn survey(seed: u64) -> Survey {
    made(seed, any_size, Outside::Any)
}

/// A random survey with any outside and at most so many splits.
pub fn small_survey(seed: u64, most_splits: usize) -> Survey {
    made(seed, |random| octree(random, most_splits), Outside::Any)
}

/// A random survey whose corners on the box's outer faces are all dry.
pub fn interior(seed: u64) -> Survey {
    made(seed, any_size, Outside::Dry)
}

/// A random survey whose corners on the box's outer faces are all dry, with at most so many splits.
pub fn small_interior(seed: u64, most_splits: usize) -> Survey {
    made(seed, |random| octree(random, most_splits), Outside::Dry)
}

/// A random survey with exactly one wet corner on the box's outer faces. It lies on one of the six alone, so that only
/// a look at this face finds it.
pub fn one_wet_outside(seed: u64) -> Survey {
    one_wet(seed, any_size)
}

/// As [`one_wet_outside`], with at most so many splits. It needs one, for a corner on one face alone.
pub fn small_one_wet_outside(seed: u64, most_splits: usize) -> Survey {
    assert!(most_splits > 0, "a corner on one face alone needs a split");
    one_wet(seed, |random| octree(random, most_splits))
}

fn one_wet(seed: u64, octree: impl Fn(&mut Random) -> Octree) -> Survey {
    let random = &mut Random::new(seed);
    let is_split = |octree: &Octree| octree.split[0];
    let octree = repeat_with(|| octree(random)).find(is_split).expect("most are split");
    let (axis, side) = (random.below(3), random.pick(&[0, BOX_SIZE]));
    let on_this_face_alone = |place: &[u16; 3]| {
        let mut inside = *place;
        inside[axis] = BOX_SIZE / 2;
        place[axis] == side && !on_outer_face(inside)
    };
    let places: Vec<_> = octree.corner_places().into_iter().filter(on_this_face_alone).collect();
    let wet = random.pick(&places);
    sounded(random, &octree, Outside::DryBut(wet))
}

/// Surveys to compare drawings on. Of sixteen seeds in a row fourteen have a dry outside, one has any outside, and one
/// a single wet corner there.
pub fn mixed(seed: u64) -> Survey {
    match seed % 16 {
        0 => survey(seed),
        1 => one_wet_outside(seed),
        _ => interior(seed),
    }
}

/// As [`mixed`], with at most so many splits, of which one is needed.
pub fn small_mixed(seed: u64, most_splits: usize) -> Survey {
    match seed % 16 {
        0 => small_survey(seed, most_splits),
        1 => small_one_wet_outside(seed, most_splits),
        _ => small_interior(seed, most_splits),
    }
}

/// The surveys of these seeds, each with the name of its generator and its seed, for a failure to tell.
pub fn named(
    generator: &'static str,
    seeds: Range<u64>,
    made: impl Fn(u64) -> Survey,
) -> impl Iterator<Item = (String, Survey)> {
    seeds.map(move |seed| (format!("{generator}, seed {seed}"), made(seed)))
}

fn made(seed: u64, octree: impl FnOnce(&mut Random) -> Octree, outside: Outside) -> Survey {
    let random = &mut Random::new(seed);
    let octree = octree(random);
    sounded(random, &octree, outside)
}

fn sounded(random: &mut Random, octree: &Octree, outside: Outside) -> Survey {
    let fits = |soundings: &Soundings| !matches!(outside, Outside::DryBut(_)) || soundings.leaves_room();
    let soundings = repeat_with(|| Soundings::random(random)).find(fits).expect("most leave room");
    let sounding = |place| match outside {
        Outside::DryBut(wet) if place == wet => soundings.wet(random),
        Outside::Dry | Outside::DryBut(_) if on_outer_face(place) => soundings.dry(random),
        _ => soundings.at(random, place),
    };
    let survey = Survey::new(octree, sounding).at(soundings.clearance);
    resounded(random, &survey)
}

fn any_size(random: &mut Random) -> Octree {
    let most_splits = match random.below(16) {
        0 => MOST_SPLITS,
        1 | 2 => 1 + random.below(64),
        _ => random.below(16),
    };
    octree(random, most_splits)
}

#[cfg(test)]
mod tests {
    use super::*;
    use crate::amendments::some_hold;
    use crate::plain::{in_force, octree, Edge, Plain};
    use crate::refusals::{first, of_drawing, OPEN_AT_BOX};

    type Maker = fn(u64) -> Survey;

    /// A small survey with a dry outside.
    const SMALL_INTERIOR: Maker = |seed| small_interior(seed, 8);

    /// A small survey with a single wet corner outside.
    const SMALL_ONE_WET: Maker = |seed| small_one_wet_outside(seed, 8);

    /// A small one of the three mixed.
    const SMALL_MIXED: Maker = |seed| small_mixed(seed, 8);

    /// Every generator but that of long loops.
    const MAKERS: [Maker; 8] = [
        survey,
        |seed| small_survey(seed, 8),
        interior,
        SMALL_INTERIOR,
        one_wet_outside,
        SMALL_ONE_WET,
        mixed,
        SMALL_MIXED,
    ];

    #[test]
    fn a_survey_is_lawful_and_follows_from_its_seed() {
        let bytes =
            |survey: Survey| (survey.cells, survey.corners, survey.amendments, survey.clearance.to_bits());
        for made in MAKERS {
            for seed in 0..100 {
                assert_eq!(first(&made(seed)), 0, "seed {seed}");
                assert_eq!(bytes(made(seed)), bytes(made(seed)), "seed {seed}");
            }
            assert_ne!(bytes(made(2)), bytes(made(3)));
        }
    }

    #[test]
    fn surveys_with_a_dry_outside_are_drawn() {
        for seed in 0..400 {
            let drawn = [interior, SMALL_INTERIOR].map(|made| of_drawing(&made(seed)));
            assert_eq!(drawn, [0; 2], "seed {seed}");
        }
    }

    /// The places of wet corners on outer faces.
    fn wet_outside(survey: &Survey) -> Vec<[u16; 3]> {
        let records = in_force(survey).into_iter().map(|held| held.record);
        let is_outside = |place: [u16; 3]| place.iter().any(|at| [0, 1_024].contains(at));
        let wet = records.filter(|record| is_outside(record.place) && record.sounding > survey.clearance);
        wet.map(|record| record.place).collect()
    }

    #[test]
    fn one_wet_corner_outside_is_on_one_of_six_faces() {
        assert_on_one_of_six_faces(one_wet_outside);
        assert_on_one_of_six_faces(SMALL_ONE_WET);
        assert_on_one_of_six_faces(|seed| small_one_wet_outside(seed, 1));
    }

    fn assert_on_one_of_six_faces(made: Maker) {
        let mut faces = [[0; 2]; 3];
        for seed in 0..600 {
            let survey = made(seed);
            let [wet] = wet_outside(&survey)[..] else { panic!("seed {seed}: {:?}", wet_outside(&survey)) };
            let outer: Vec<usize> = (0..3).filter(|&axis| [0, 1_024].contains(&wet[axis])).collect();
            let [axis] = outer[..] else { panic!("seed {seed}: {wet:?}") };
            faces[axis][usize::from(wet[axis] == 1_024)] += 1;
            assert_eq!(of_drawing(&survey), OPEN_AT_BOX, "seed {seed}");
        }
        assert!(faces.as_flattened().iter().all(|&count| count > 60), "lower and upper by axis: {faces:?}");
    }

    #[test]
    fn most_of_the_mixed_surveys_are_drawn() {
        for made in [mixed, SMALL_MIXED] {
            let refusals: Vec<u32> = (0..1_600).map(|seed| of_drawing(&made(seed))).collect();
            let count = |number| refusals.iter().filter(|&&refusal| refusal == number).count();
            assert!(count(0) >= 1_400 && count(OPEN_AT_BOX) > 180, "{} drawn", count(0));
        }
        let with_any_outside = (0..1_600).step_by(16).map(mixed);
        let open = with_any_outside.filter(|survey| of_drawing(survey) == OPEN_AT_BOX).count();
        assert!((80..100).contains(&open), "with any outside {open} of 100 are refused");
    }

    #[test]
    fn small_surveys_have_few_splits() {
        for most_splits in [1, 2, 8] {
            let small = [small_survey, small_interior, small_one_wet_outside, small_mixed];
            for seed in 0..400 {
                let splits = small.map(|made| made(seed, most_splits).cells.len() / 4 / 8);
                assert!(splits.iter().all(|&splits| splits <= most_splits), "seed {seed}: {splits:?}");
                assert!(splits[2] > 0, "seed {seed}: the one with a wet corner on one face alone");
            }
        }
    }

    #[test]
    fn a_named_survey_tells_its_generator_and_seed() {
        let surveys = named("mixed", 3..5, mixed).map(|(name, survey)| (name, survey.corners));
        let expected = [("mixed, seed 3", 3), ("mixed, seed 4", 4)];
        assert!(surveys.eq(expected.map(|(name, seed)| (name.to_string(), mixed(seed).corners))));
    }

    /// Counts the surveys of 400 seeds that show something.
    fn count(made: Maker, shows: impl Fn(&Survey) -> bool) -> usize {
        (0..400).map(made).filter(shows).count()
    }

    fn any_sounding(shows: impl Fn(f32, f32) -> bool) -> usize {
        count(interior, |survey| {
            in_force(survey).iter().any(|held| shows(held.record.sounding, survey.clearance))
        })
    }

    /// Counts those in which some edge that carries a point shows something.
    fn any_carrier(made: Maker, shows: impl Fn(&Plain, Edge) -> bool) -> usize {
        count(made, |survey| {
            let plain = Plain::read(survey);
            plain.carriers.iter().any(|&edge| shows(&plain, edge))
        })
    }

    fn assert_more(count: usize, bound: usize, what: &str) {
        assert!(count > bound, "{what}: {count}");
    }

    #[test]
    fn the_surveys_show_what_a_drawing_may_stumble_over() {
        let deepest = |survey: &Survey| octree(&survey.cells).cubes.iter().any(|cube| cube.size == 1);
        assert_more(count(interior, deepest), 20, "cells of depth 10");
        let full = |survey: &Survey| survey.cells.len() == 4 * (1 + 8 * MOST_SPLITS);
        assert_more(count(interior, full), 5, "256 splits");
        assert_more(any_sounding(|sounding, _| sounding.abs() == 1_048_576.0), 10, "the greatest numbers");
        let subnormal = |sounding: f32, clearance: f32| sounding.is_subnormal() && clearance.is_subnormal();
        assert_more(any_sounding(subnormal), 20, "subnormal numbers");
        let unlike_zeros = |sounding: f32, clearance: f32| {
            sounding == 0.0 && sounding == clearance && sounding.to_bits() != clearance.to_bits()
        };
        assert_more(any_sounding(unlike_zeros), 30, "zeros of both signs");
        assert_more(any_sounding(|sounding, clearance| sounding == clearance), 70, "awash");
        let away_from_0 = |sounding: f32, clearance: f32| sounding == clearance && clearance.is_normal();
        assert_more(any_sounding(away_from_0), 30, "awash at a clearance that is not 0");
    }

    #[test]
    fn about_every_second_survey_is_amended() {
        for made in MAKERS {
            let with_amendments = count(made, |survey| !survey.amendments.is_empty());
            assert!((160..240).contains(&with_amendments), "{with_amendments} of 400 have amendments");
            assert_more(count(made, some_hold), 120, "an amendment holds");
            assert_more(count(made, |survey| survey.amendments.len() == 12_000), 10, "1,000 amendments");
        }
    }

    /// Few splits leave few corners inside the box, and yet most surveys have points, divided edges and twins.
    #[test]
    fn small_surveys_with_a_dry_outside_show_much() {
        assert_more(any_carrier(SMALL_INTERIOR, |_, _| true), 340, "points");
        let many = |survey: &Survey| Plain::read(survey).carriers.len() > 50;
        assert_more(count(SMALL_INTERIOR, many), 150, "over 50 points");
        let odd_above = |plain: &Plain, edge| plain.above(edge).is_some_and(|above| plain.is_odd(above));
        assert_more(any_carrier(SMALL_INTERIOR, odd_above), 300, "an odd divided edge");
        let twin = |plain: &Plain, edge| plain.twin(plain.point(edge)).is_some();
        assert_more(any_carrier(SMALL_INTERIOR, twin), 280, "a twin");
        let far_twin = |plain: &Plain, edge| twin(plain, edge) && odd_above(plain, edge);
        assert_more(any_carrier(SMALL_INTERIOR, far_twin), 120, "a twin above an odd edge");
    }

    /// t is 0 without rounding where the dry end is awash, and 1 by rounding alone.
    #[test]
    fn the_points_show_every_way_to_lie_at_an_end() {
        let awash = |plain: &Plain, edge: Edge| plain.is_awash(plain.dry_and_wet(edge)[0]);
        let lower_awash = |plain: &Plain, edge: Edge| awash(plain, edge) && plain.is_wet(edge.high());
        let upper_awash = |plain: &Plain, edge: Edge| awash(plain, edge) && plain.is_wet(edge.low());
        // The place is 0 plus the length times t, and the length times t alone would be -0.
        let negative_zero = |plain: &Plain, edge: Edge| {
            plain.t(edge).to_bits() == (-0f32).to_bits() && plain.dry_and_wet(edge)[0][edge.axis] == 0
        };
        let rounded_to_0 = |plain: &Plain, edge: Edge| plain.t(edge) == 0.0 && !awash(plain, edge);
        for made in [survey, interior] {
            assert_more(any_carrier(made, lower_awash), 60, "the lower end awash");
            assert_more(any_carrier(made, upper_awash), 60, "the upper end awash");
            assert_more(any_carrier(made, negative_zero), 12, "t = -0 from a dry end at 0");
            assert_more(any_carrier(made, rounded_to_0), 3, "t = 0 by rounding");
            assert_more(any_carrier(made, |plain, edge| plain.t(edge) == 1.0), 70, "t = 1 by rounding");
        }
        let on_outside = |plain: &Plain, edge: Edge| {
            let [dry_end, wet_end] = plain.dry_and_wet(edge);
            awash(plain, edge) && on_outer_face(dry_end) && !on_outer_face(wet_end)
        };
        assert_more(any_carrier(interior, on_outside), 150, "awash on an outer face");
    }
}
