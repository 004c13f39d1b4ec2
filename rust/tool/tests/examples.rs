//! The example surveys: drawn or refused as they say, closing, and the same bytes as in the project's examples.

mod common;

use std::collections::BTreeSet;

use clearance_tool::examples::{find, EXAMPLES};
use common::{drawn, printed, root, run, survey, Place};
use surveys::{closing, plain, refusals};

#[test]
fn every_example_is_as_it_says() {
    let place = Place::new("examples");
    for example in EXAMPLES {
        let directory = place.example(example.name);
        let survey = survey(&place.path.join(example.name));
        assert_eq!(refusals::of_drawing(&survey), example.refusal, "{}", example.name);
        let draw = run(&["draw", &directory]);
        match example.refusal {
            0 => assert_eq!(draw.status, 0, "{}", example.name),
            number => assert_eq!((draw.status, draw.out), (1, format!("refused {number}\n"))),
        }
        let check = run(&["check", &directory]);
        match refusals::by_itself(example.refusal) {
            0 => assert_eq!((check.status, check.out.as_str()), (0, "lawful\n"), "{}", example.name),
            number => assert!(check.status == 1 && check.out.starts_with(&format!("refused {number}: "))),
        }
    }
}

#[test]
fn every_example_that_is_drawn_closes() {
    let mut basins = 0;
    for example in EXAMPLES.iter().filter(|example| example.refusal == 0) {
        let survey = (example.survey)();
        let mesh = drawn(&survey);
        let (points, triangles) = (mesh.points.as_flattened(), mesh.triangles.as_flattened());
        assert_eq!(closing::check(&survey, points, triangles), Ok(()), "{}", example.name);
        basins += usize::from(points.len() > 3 * 100);
    }
    assert_eq!(basins, 6);
}

#[test]
fn basins_have_cells_of_several_sizes_at_the_surface() {
    for name in ["lock-chamber", "weir-pool"] {
        let survey = (find(name).expect("an example").survey)();
        let taken_apart = plain::Plain::read(&survey);
        let is_crossed = |leaf: &&surveys::survey::Cube| {
            let wet = leaf.corners().into_iter().filter(|&corner| taken_apart.is_wet(corner)).count();
            (1..8).contains(&wet)
        };
        let sizes: BTreeSet<u16> =
            taken_apart.leaves.iter().filter(is_crossed).map(|leaf| leaf.size).collect();
        assert!(sizes.len() >= 3, "{name}: {sizes:?}");
    }
}

#[test]
fn the_projects_examples_are_what_the_tool_writes() {
    let place = Place::new("same");
    for name in ["twin", "resounded", "lock-chamber", "weir-pool"] {
        place.example(name);
        let [written, kept] =
            [place.path.join(name), root().join("examples").join(name)].map(|at| survey(&at));
        assert!(written == kept, "examples/{name} is not what 'clearance example {name}' writes");
    }
}

#[test]
fn a_smaller_clearance_and_dredging_make_more_water() {
    let place = Place::new("clearance");
    let volume = |name: &str| -> f64 {
        let info = printed(&["info", &place.example(name)]);
        let line = info.lines().find_map(|line| line.strip_prefix("volume ")).expect("a volume");
        line.trim().parse().expect("a number")
    };
    assert!(volume("lock-chamber") > volume("hull-room"));
    let weir_pool = volume("weir-pool");
    assert!(volume("dredged") > weir_pool && weir_pool > volume("deep-water"));
}

#[test]
fn a_dozen_corners_of_the_dredged_pool_are_sounded_again() {
    let place = Place::new("dredged");
    let info = printed(&["info", &place.example("dredged")]);
    assert!(info.contains("\namendments 13 (12 in force)\n"), "{info}");
}
