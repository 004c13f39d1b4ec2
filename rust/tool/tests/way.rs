//! `way`: the way that the library shows, in words and as JSON, and what is refused.

mod common;

use std::fs;

use clearance::Passage;
use clearance_tool::files::{self, tables};
use common::{printed, root, run, survey, text, twin, Place, Ran};
use serde_json::{json, Value};
use surveys::plain::records;
use surveys::{damage, document, generate, Survey};

fn places(survey: &Survey) -> Vec<[u16; 3]> {
    records(&survey.corners).map(|record| record.place).collect()
}

/// A place as the command line takes it.
fn spelled([x, y, z]: [u16; 3]) -> String {
    format!("{x},{y},{z}")
}

fn passage(survey: &Survey, start: usize, end: usize) -> Passage {
    clearance::way_to_vec(tables(survey), survey.clearance, start as u32, end as u32)
        .expect("both are corners")
}

/// A question with an option for each of these clearances.
fn with_clearances<'a>(question: &[&'a str], clearances: &[&'a str]) -> Vec<&'a str> {
    let options = clearances.iter().flat_map(|clearance| ["--clearance", clearance]);
    question.iter().copied().chain(options).collect()
}

/// The longest of the shortest ways from the first wet corner of a survey that has one.
fn longest(survey: &Survey) -> Option<Vec<u16>> {
    let start = (0..places(survey).len()).find(|&corner| passage(survey, corner, corner).way.is_some())?;
    let steps = passage(survey, start, start).steps;
    let end = (0..steps.len()).max_by_key(|&corner| steps[corner])?;
    passage(survey, start, end).way
}

/// Random surveys with a wet corner, each with the directory that it is written into and the longest of its shortest ways.
fn written(place: &Place) -> impl Iterator<Item = (String, Survey, Vec<u16>)> + '_ {
    (0..24).filter_map(|seed| {
        let survey = generate::mixed(seed);
        let way = longest(&survey)?;
        let directory = place.below(&format!("seed-{seed}"));
        files::write(directory.as_ref(), &survey, &[]).expect("the survey is written");
        Some((directory, survey, way))
    })
}

/// The lengths of the steps of a way, which each go along one axis.
fn step_lengths(places: &[[u16; 3]], way: &[u16]) -> Vec<u32> {
    let length = |ends: &[u16]| {
        let [from, to] = [ends[0], ends[1]].map(|end| places[usize::from(end)]);
        let moved: Vec<u16> =
            (0..3).map(|axis| from[axis].abs_diff(to[axis])).filter(|&far| far > 0).collect();
        assert_eq!(moved.len(), 1, "{from:?} to {to:?}");
        u32::from(moved[0])
    };
    way.windows(2).map(length).collect()
}

/// What the tool should print of a way.
fn words(places: &[[u16; 3]], way: &[u16]) -> String {
    let line = |&record: &u16| format!("corner {record} at {}\n", spelled(places[usize::from(record)]));
    let lengths = step_lengths(places, way);
    let length: u32 = lengths.iter().sum();
    let steps = if lengths.len() == 1 { "step" } else { "steps" };
    let units = if length == 1 { "unit" } else { "units" };
    let last = format!("{} {steps}, {length} {units} long\n", lengths.len());
    way.iter().map(line).chain([last]).collect()
}

/// The object that the tool should print of a way for one boat.
fn object(survey: &Survey, way: &[u16]) -> Value {
    let places = places(survey);
    let corner = |&record: &u16| json!({ "record": record, "place": places[usize::from(record)] });
    let lengths = step_lengths(&places, way);
    json!({
        "start": way[0],
        "end": way[way.len() - 1],
        "clearance": survey.clearance,
        "steps": lengths.len(),
        "length": lengths.iter().sum::<u32>(),
        "corners": way.iter().map(corner).collect::<Vec<Value>>(),
    })
}

/// The object that the tool should print of a way for a convoy, if the survey's clearance is the greatest.
fn convoy_object(survey: &Survey, clearances: &[f32], way: &[u16]) -> Value {
    let one_boat = object(survey, way);
    json!({
        "start": one_boat["start"],
        "end": one_boat["end"],
        "clearances": clearances,
        "greatest": survey.clearance,
        "steps": one_boat["steps"],
        "length": one_boat["length"],
        "corners": one_boat["corners"],
    })
}

#[test]
fn the_librarys_way_is_shown_by_number_and_by_place() {
    let place = Place::new("way");
    let mut most = 0;
    for (directory, survey, way) in written(&place) {
        let places = places(&survey);
        let ends = [way[0], way[way.len() - 1]];
        let [start, end] = ends.map(|end| end.to_string());
        let [start_place, end_place] = ends.map(|end| spelled(places[usize::from(end)]));
        for ends in [[&start, &end], [&start_place, &end_place], [&start, &end_place]] {
            let shown = printed(&["way", &directory, ends[0], ends[1]]);
            assert_eq!(shown, words(&places, &way), "{directory}, {ends:?}");
        }
        let shown = printed(&["way", &directory, &start_place, &end, "--json"]);
        let read: Value = serde_json::from_str(&shown).expect("JSON");
        assert_eq!(read, object(&survey, &way), "{directory}");
        most = most.max(way.len());
    }
    assert!(most >= 8, "{most}");
}

#[test]
fn a_way_is_measured_in_steps_and_units() {
    let across = "corner 31 at 256,512,512\ncorner 32 at 512,512,512\ncorner 33 at 1024,512,512\n\
                  corner 36 at 1024,1024,512\ncorner 45 at 1024,1024,1024\n4 steps, 1792 units long\n";
    assert_eq!(printed(&["way", &twin(), "31", "45", "--clearance", "-2"]), across);
    let one_step = "corner 32 at 512,512,512\ncorner 31 at 256,512,512\n1 step, 256 units long\n";
    assert_eq!(printed(&["way", &twin(), "32", "31", "--clearance", "-2"]), one_step);
    assert_eq!(printed(&["way", &twin(), "31", "31"]), "corner 31 at 256,512,512\n0 steps, 0 units long\n");
    let place = Place::new("unit-way");
    let shortest = "corner 0 at 0,0,0\ncorner 1 at 1,0,0\n1 step, 1 unit long\n";
    assert_eq!(printed(&["way", &place.example("deepest"), "0", "1", "--clearance", "-2"]), shortest);
}

#[test]
fn an_object_is_one_line() {
    let shown = printed(&["way", &twin(), "32", "256,512,512", "--json", "--clearance", "-1.5"]);
    let expected = "{\"start\":32,\"end\":31,\"clearance\":-1.5,\"steps\":1,\"length\":256,\"corners\":[\
                    {\"record\":32,\"place\":[512,512,512]},{\"record\":31,\"place\":[256,512,512]}]}\n";
    assert_eq!(shown, expected);
    // The binary32 that was taken, and not the decimal number.
    let tenth = printed(&["way", &twin(), "31", "31", "--json", "--clearance", "0.1"]);
    let read: Value = serde_json::from_str(&tenth).expect("JSON");
    assert_eq!(read["clearance"].as_f64(), Some(f64::from(0.1f32)));
}

#[test]
fn a_convoys_object_has_its_clearances_and_the_greatest() {
    let question = ["way", &twin(), "32", "256,512,512", "--json"];
    let shown = printed(&with_clearances(&question, &["-2", "-1.5", "-3", "-1.5"]));
    let expected = "{\"start\":32,\"end\":31,\"clearances\":[-2.0,-1.5,-3.0,-1.5],\"greatest\":-1.5,\"steps\":1,\"length\":256,\
                    \"corners\":[{\"record\":32,\"place\":[512,512,512]},{\"record\":31,\"place\":[256,512,512]}]}\n";
    assert_eq!(shown, expected);
    // The binary32 that were taken, and not the decimal numbers.
    let tenths = printed(&with_clearances(&["way", &twin(), "31", "31", "--json"], &["0.1", "-0.1"]));
    let read: Value = serde_json::from_str(&tenths).expect("JSON");
    let tenth = f64::from(0.1f32);
    assert_eq!((&read["clearances"], &read["greatest"]), (&json!([tenth, -tenth]), &json!(tenth)));
}

/// Three boats in every order.
fn orders([one, other, third]: [&str; 3]) -> [[&str; 3]; 6] {
    [
        [one, other, third],
        [one, third, other],
        [other, one, third],
        [other, third, one],
        [third, one, other],
        [third, other, one],
    ]
}

/// What the tool should print of a convoy, behind what it prints of the boat with the greatest clearance.
fn convoy_words(alone: &str, boats: usize, greatest: &str) -> String {
    format!("{alone}convoy of {boats}; the greatest clearance is {greatest}\n")
}

#[test]
fn a_convoy_has_the_way_of_one_boat_at_the_greatest_clearance() {
    let cases = [
        ("weir-pool", ["256,512,512", "768,512,256"], ["10", "12", "24.5"]),
        ("weir-pool", ["768,512,256", "256,512,512"], ["-2500", "-7.5", "-0.125"]),
        ("lock-chamber", ["640,384,576", "896,704,416"], ["-3", "0", "40"]),
    ];
    for (name, ends, boats) in cases {
        let directory = root().join("examples").join(name);
        let question = ["way", text(&directory), ends[0], ends[1]];
        let [least, _, greatest] = boats;
        let [low, high] =
            [least, greatest].map(|clearance| printed(&with_clearances(&question, &[clearance])));
        assert_ne!(low, high, "{name} at {least} and {greatest}");
        for order in orders(boats) {
            let shown = printed(&with_clearances(&question, &order));
            assert_eq!(shown, convoy_words(&high, 3, greatest), "{name} at {order:?}");
        }
        // Boats with one clearance are a convoy too.
        let shown = printed(&with_clearances(&question, &[greatest; 2]));
        assert_eq!(shown, convoy_words(&high, 2, greatest), "{name}");
    }
}

/// The survey's clearance is that of the boat in the middle, and the greatest.
#[test]
fn the_librarys_way_is_shown_to_a_convoy() {
    let place = Place::new("convoy");
    let mut others = 0;
    for (directory, survey, way) in written(&place) {
        let least = (survey.clearance - 1.0).max(-1_048_576.0);
        let clearances = [least, survey.clearance, least];
        let boats = clearances.map(|clearance| clearance.to_string());
        let [start, end] = [way[0], way[way.len() - 1]].map(|end| end.to_string());
        let question = ["way", &directory, &start, &end];
        let question = with_clearances(&question, &boats.each_ref().map(String::as_str));
        let alone = words(&places(&survey), &way);
        assert_eq!(printed(&question), convoy_words(&alone, 3, &boats[1]), "{directory}");
        // As text, in which no digit of a number is lost.
        let shown = printed(&[&question, &["--json"][..]].concat());
        assert_eq!(shown, format!("{}\n", convoy_object(&survey, &clearances, &way)), "{directory}");
        let lower = Survey { clearance: least, ..survey };
        others += usize::from(passage(&lower, way[0].into(), way[way.len() - 1].into()).way != Some(way));
    }
    assert!(others >= 4, "{others} times the way at the least is another");
}

/// The straight line between the two is dry where it meets the crest.
#[test]
fn a_way_bends_around_dry_ground() {
    let place = Place::new("bend");
    let directory = place.example("weir-pool");
    let pool = survey(&place.path.join("weir-pool"));
    let corners: Vec<_> = records(&pool.corners).collect();
    let sounding = |place| corners.iter().find(|corner| corner.place == place).expect("a corner").sounding;
    let [start, middle, end] = [[256, 512, 512], [512, 512, 384], [768, 512, 256]];
    assert!(sounding(start) > 0.0 && sounding(middle) < 0.0 && sounding(end) > 0.0);
    let shown = printed(&["way", &directory, &spelled(start), &spelled(end)]);
    let over_the_crest = "\ncorner 1706 at 512,512,640\ncorner 1707 at 576,512,640\n";
    assert!(shown.contains(over_the_crest) && shown.ends_with("\n14 steps, 1024 units long\n"), "{shown}");
}

#[test]
fn a_pool_that_runs_out_of_the_box_serves() {
    let place = Place::new("open-way");
    let directory = place.example("open-pool");
    assert_eq!(run(&["draw", &directory]).out, "refused 12\n");
    let shown = printed(&["way", &directory, "0,512,512", "128,512,512"]);
    assert!(shown.starts_with("corner 1185 at 0,512,512\n"), "{shown}");
    assert!(shown.ends_with("\n2 steps, 128 units long\n"), "{shown}");
}

/// Asks in words and with `--json`: the words stand on standard error both times, and the second time in an object too.
fn assert_refused(question: &[&str], number: u32, words: &str) {
    let errors = format!("clearance: refused {number}: {words}\n");
    let spoken = run(question);
    assert_eq!((spoken.status, spoken.out.as_str()), (1, ""), "{question:?}");
    assert_eq!(spoken.errors, errors, "{question:?}");
    let Ran { status, out, errors: also } = run(&[question, &["--json"]].concat());
    assert_eq!((status, also), (1, errors), "{question:?}");
    let read: Value = serde_json::from_str(&out).expect("JSON");
    assert_eq!(read, json!({ "refused": number, "words": words }), "{question:?}");
}

#[test]
fn the_surveys_own_refusals_come_first() {
    let place = Place::new("damaged-way");
    for refusal in surveys::refusals::ORDER {
        let damaged = damage::damaged_for(refusal, 1);
        let directory = place.below(&refusal.to_string());
        files::write(directory.as_ref(), &damaged.survey, &[]).expect("the survey is written");
        let words = clearance::Refusal::from_number(refusal).expect("a refusal").to_string();
        // Neither is a corner, which 18 would say.
        let question = ["way", &directory, "1,2,3", "4872"];
        assert_refused(&question, refusal, &words);
        // Of a convoy the clearances are by hand, and this one is refused by 21 otherwise.
        if refusal != clearance::Refusal::Clearance.number() {
            assert_refused(&with_clearances(&question, &["nan"; 17]), refusal, &words);
        }
    }
}

#[test]
fn sixteen_boats_are_the_most() {
    let boats: Vec<String> = (1..=17).map(|boat| format!("-{boat}")).collect();
    let boats: Vec<&str> = boats.iter().map(String::as_str).collect();
    let directory = twin();
    let question = ["way", &directory, "31", "45"];
    let one = printed(&with_clearances(&question, &["-2"]));
    assert_eq!(printed(&with_clearances(&question, &boats[1..])), convoy_words(&one, 16, "-2"));
    let words = "the convoy has no clearance or more than 16";
    assert_refused(&with_clearances(&question, &boats), 21, words);
    // Before a clearance beyond its range and an end that is no corner are looked at.
    let seventeen = with_clearances(&["way", &directory, "1,2,3", "46"], &["nan"; 17]);
    assert_refused(&seventeen, 21, words);
}

#[test]
fn a_convoys_clearances_beyond_their_range_are_named() {
    let cases: [(&[&str], &str); 5] = [
        (&["1", "nan"], "clearance 2 of 2 is NaN"),
        (&["1", "2", "-inf", "3"], "clearance 3 of 4 is -inf"),
        (&["1048577", "1048576", "-1048576"], "clearance 1 of 3 is 1048577"),
        (&["2e6", "-4", "-1048577"], "clearance 1 of 3 is 2000000; clearance 3 of 3 is -1048577"),
        (&["inf"; 2], "clearance 1 of 2 is inf; clearance 2 of 2 is inf"),
    ];
    for (boats, why) in cases {
        let words = format!("the clearance is not finite or beyond ±1,048,576: {why}");
        // Neither is a corner, which 18 would say.
        assert_refused(&with_clearances(&["way", &twin(), "1,2,3", "46"], boats), 8, &words);
    }
}

#[test]
fn what_is_no_corner_is_named() {
    let cases = [
        (["46", "31"], "START is record 46, and the last record is 45"),
        (["31", "4294967295"], "END is record 4294967295, and the last record is 45"),
        (["256,512,513", "31"], "START is the place 256,512,513, and no corner is there"),
        (["31", "65792,512,512"], "END is the place 65792,512,512, and no corner is there"),
        (
            ["1,2,3", "99"],
            "START is the place 1,2,3, and no corner is there; END is record 99, and the last record is 45",
        ),
    ];
    for (ends, why) in cases {
        let words = format!("the start or the end is no corner: {why}");
        assert_refused(&["way", &twin(), ends[0], ends[1]], 18, &words);
    }
}

#[test]
fn why_there_is_no_way_is_said() {
    let place = Place::new("no-way");
    let directory = place.below("two");
    let two_pools = document::wet_at(&[0, 1], &[[256, 256, 256], [256, 512, 512]], 1.0);
    files::write(directory.as_ref(), &two_pools, &[]).expect("the survey is written");
    let wet = ["256,256,256", "256,512,512"];
    let cases = [
        (
            [wet[0], wet[1]],
            "both are wet, but the end is out of reach; from the start 1 of 46 corners can be reached, the start included",
        ),
        ([wet[0], "0"], "the end is dry; from the start 1 of 46 corners can be reached, the start included"),
        (["0", wet[1]], "the start is dry; from the start 0 of 46 corners can be reached"),
        (["0", "45"], "the start and the end are dry; from the start 0 of 46 corners can be reached"),
    ];
    for (ends, why) in cases {
        let words = format!("no way over wet corners leads from the start to the end: {why}");
        assert_refused(&["way", &directory, ends[0], ends[1]], 20, &words);
    }
}

/// Of the twin survey's corners 31 alone is wet at 0 and 0.5, and all are at -2 and -1.5. Of one boat no more is said.
#[test]
fn which_boats_have_a_way_alone_is_said() {
    let no_way = "no way over wet corners leads from the start to the end";
    let cases: [(&[&str], &str); 5] = [
        (&["0.5"], ""),
        (&["-2", "0.5"], "; a boat alone has a way at -2, and none at 0.5"),
        (&["0.5", "-2", "-1.5"], "; a boat alone has a way at -2 and -1.5, and none at 0.5"),
        (&["0.5", "-2", "0", "-2"], "; a boat alone has a way at -2, and none at 0 and 0.5"),
        (&["0", "0.5"], "; no boat has a way alone"),
    ];
    for (boats, alone) in cases {
        let reached = "the end is dry; from the start 1 of 46 corners can be reached, the start included";
        let words = format!("{no_way}: {reached}{alone}");
        assert_refused(&with_clearances(&["way", &twin(), "31", "45"], boats), 20, &words);
        let reached = "the start is dry; from the start 0 of 46 corners can be reached";
        let words = format!("{no_way}: {reached}{alone}");
        assert_refused(&with_clearances(&["way", &twin(), "45", "31"], boats), 20, &words);
    }
    let pool = root().join("examples/weir-pool");
    let question = ["way", text(&pool), "256,512,512", "768,512,256"];
    let words = format!(
        "{no_way}: both are wet, but the end is out of reach; from the start 176 of 2914 corners can be reached, the start included; \
         a boat alone has a way at 10 and 12, and none at 32"
    );
    assert_refused(&with_clearances(&question, &["10", "32", "12"]), 20, &words);
}

/// Corners in reach are counted by the library's own steps.
#[test]
fn corners_in_reach_are_counted() {
    let place = Place::new("in-reach");
    let directory = place.example("deep-water");
    let pool = survey(&place.path.join("deep-water"));
    let start = places(&pool).iter().position(|&place| place == [256, 512, 512]).expect("a corner");
    let reached = passage(&pool, start, 0).steps.iter().flatten().count();
    assert!(reached > 9, "{reached}");
    let words = format!(
        "no way over wet corners leads from the start to the end: the end is dry; from the start {reached} of {} corners can be reached, \
         the start included",
        places(&pool).len()
    );
    assert_refused(&["way", &directory, "256,512,512", "0"], 20, &words);
}

#[test]
fn a_missing_file_is_no_refusal() {
    let place = Place::new("way-missing");
    let directory = place.example("twin");
    fs::remove_file(place.path.join("twin/corners")).expect("the file is there");
    let Ran { status, out, errors } = run(&["way", &directory, "31", "31", "--json"]);
    assert_eq!((status, out.as_str()), (2, ""));
    assert!(errors.contains("/twin/corners: "), "{errors}");
}

#[test]
fn the_helps_example_runs() {
    let place = Place::new("way-help");
    let pool = place.below("pool");
    let help = printed(&["way", "--help"]);
    let lines: Vec<&str> = help.lines().filter_map(|line| line.strip_prefix("    clearance ")).collect();
    let outcomes = lines.iter().map(|line| {
        let arguments = line.split(' ').map(|word| if word == "pool" { pool.as_str() } else { word });
        run(&arguments.collect::<Vec<&str>>()).status
    });
    assert_eq!(outcomes.collect::<Vec<i32>>(), [0, 0, 1, 0], "{help}");
}
