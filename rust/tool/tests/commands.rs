//! The commands that answer in words: check, draw, enquire, info, volume, example and the help.

mod common;

use common::{drawn, printed, root, run, survey, text, twin, Place};
use surveys::{damage, document, generate};

/// All commands.
const COMMANDS: [&str; 12] = [
    "check", "draw", "enquire", "info", "volume", "way", "obj", "ply", "render", "calendar", "convert",
    "example",
];

#[test]
fn check_says_lawful_or_why_not() {
    let place = Place::new("check");
    assert_eq!(printed(&["check", &twin()]), "lawful\n");
    let ran = run(&["check", &place.example("refused-4")]);
    assert_eq!((ran.status, ran.out.as_str()), (1, "refused 4: a cell of depth 10 is split\n"));
    // The clearance is not looked at.
    let directory = place.example("centre");
    std::fs::remove_file(place.path.join("centre/clearance")).expect("the file is there");
    assert_eq!(printed(&["check", &directory]), "lawful\n");
}

#[test]
fn draw_lists_the_twin_survey_as_the_drawing_program_does() {
    let expected = std::fs::read_to_string(root().join("crates/draw/stdout")).expect("the program's listing");
    assert_eq!(printed(&["draw", &twin()]), expected);
}

#[test]
fn draw_lists_more_than_the_drawing_program_lends() {
    let place = Place::new("large");
    let large = (0..).map(generate::interior).find(|survey| drawn(survey).points.len() > 2_048);
    let survey = large.expect("some survey has many points");
    clearance_tool::files::write(&place.path, &survey, &[]).expect("the survey is written");
    let listing = printed(&["draw", text(&place.path)]);
    let mesh = drawn(&survey);
    let counts = format!("{} {}\n", mesh.points.len(), mesh.triangles.len());
    assert!(listing.starts_with(&counts), "{counts}");
    assert_eq!(listing.lines().filter(|line| line.starts_with("v ")).count(), mesh.points.len());
    assert_eq!(listing.lines().filter(|line| line.starts_with("t ")).count(), mesh.triangles.len());
}

#[test]
fn draw_refuses_as_the_drawing_program_does() {
    let place = Place::new("draw");
    for seed in 0..20 {
        let damaged = damage::damaged(seed);
        let name = seed.to_string();
        clearance_tool::files::write(&place.path.join(&name), &damaged.survey, &[])
            .expect("the survey is written");
        let ran = run(&["draw", &place.below(&name)]);
        assert_eq!((ran.status, ran.out), (1, format!("refused {}\n", damaged.refusal)), "seed {seed}");
        assert!(
            ran.errors.starts_with(&format!("clearance: refused {}: ", damaged.refusal)),
            "{}",
            ran.errors
        );
    }
}

#[test]
fn a_missing_file_counts_as_empty_for_draw_only() {
    let place = Place::new("missing");
    let directory = place.example("centre");
    std::fs::remove_file(place.path.join("centre/clearance")).expect("the file is there");
    assert_eq!(run(&["draw", &directory]).out, "refused 8\n");
    std::fs::remove_file(place.path.join("centre/corners")).expect("the file is there");
    let ran = run(&["draw", &directory]);
    assert_eq!(ran.out, "refused 2\n");
    assert!(ran.errors.contains("/centre/corners is missing and counts as empty\n"), "{}", ran.errors);
    assert!(!ran.errors.contains("/centre/cells is missing"), "{}", ran.errors);
    assert_eq!(run(&["draw", &place.below("nowhere")]).out, "refused 1\n");
    let picture = place.below("picture.png");
    let edge = ["enquire", &directory, "x", "0", "0", "0", "512"];
    let others: [&[&str]; 8] = [
        &["check", &directory],
        &["info", &directory],
        &["volume", &directory],
        &["way", &directory, "0", "0"],
        &["obj", &directory],
        &["ply", &directory],
        &["render", &directory, &picture],
        &edge,
    ];
    for arguments in others {
        let ran = run(arguments);
        assert_eq!((ran.status, ran.out.as_str()), (2, ""), "{arguments:?}");
        assert!(ran.errors.contains("/centre/corners: "), "{}", ran.errors);
    }
    assert!(!place.path.join("picture.png").exists());
}

#[test]
fn a_file_in_place_of_the_directory_is_an_error() {
    let ran = run(&["draw", &format!("{}/cells", twin())]);
    assert_eq!((ran.status, ran.out.as_str()), (2, ""));
    assert!(ran.errors.contains("twin/cells/cells: Not a directory"), "{}", ran.errors);
    assert!(!ran.errors.contains("counts as empty"), "{}", ran.errors);
}

#[test]
fn a_clearance_of_another_length_is_refused() {
    let place = Place::new("length");
    let directory = place.example("centre");
    std::fs::write(place.path.join("centre/clearance"), [0; 5]).expect("a file");
    assert_eq!(run(&["draw", &directory]).out, "refused 8\n");
    let ran = run(&["info", &directory]);
    assert_eq!((ran.status, ran.out.as_str()), (1, ""));
    assert!(ran.errors.starts_with("clearance: refused 8: "), "{}", ran.errors);
}

#[test]
fn enquire_answers_for_axes_by_letter_and_number() {
    let cases = [
        ("x", ["256", "512", "512", "256"], "crossing 1 384 512 512 lower end wet\n"),
        ("0", ["256", "512", "512", "256"], "crossing 1 384 512 512 lower end wet\n"),
        ("y", ["256", "256", "512", "256"], "crossing 2 256 384 512 upper end wet\n"),
        ("1", ["256", "256", "512", "256"], "crossing 2 256 384 512 upper end wet\n"),
        ("z", ["256", "512", "256", "256"], "crossing 3 256 512 384 upper end wet\n"),
        ("2", ["256", "512", "256", "256"], "crossing 3 256 512 384 upper end wet\n"),
        ("x", ["0", "512", "512", "512"], "even\n"),
    ];
    for (axis, edge, answer) in cases {
        assert_eq!(printed(&[&["enquire", &twin(), axis], &edge[..]].concat()), answer, "{axis} {edge:?}");
    }
}

#[test]
fn ground_awash_is_dry() {
    let place = Place::new("awash");
    let awash = place.example("awash");
    assert_eq!(printed(&["draw", &awash]), "0 0\n");
    assert_eq!(printed(&["enquire", &awash, "x", "0", "0", "0", "1024"]), "even\n");
    let around = place.example("awash-around");
    let answer = printed(&["enquire", &around, "x", "0", "512", "512", "512"]);
    assert_eq!(answer, "crossing 0 0 512 512 upper end wet\n");
    // The points are the middles of the box's sides.
    assert!(printed(&["info", &around]).ends_with("triangles  8\nvolume     178956970.667\n"));
}

#[test]
fn enquire_refuses_what_is_no_edge() {
    for arguments in [["3", "0", "0", "0", "512"], ["x", "1", "0", "0", "512"], ["x", "0", "0", "0", "2048"]]
    {
        let ran = run(&[&["enquire", &twin()], &arguments[..]].concat());
        assert_eq!((ran.status, ran.out.as_str()), (1, ""), "{arguments:?}");
        assert_eq!(ran.errors, "clearance: refused 11: no cell has this edge\n");
    }
}

#[test]
fn info_counts() {
    let expected = "records    17\ndepth      2\nleaves     15\ncorners    46\nclearance  0\npoints     4\ntriangles  4\n\
                    volume     699050.667\n";
    assert_eq!(printed(&["info", &twin()]), expected);
    let place = Place::new("info");
    assert!(printed(&["info", &place.example("all-dry")]).ends_with("triangles  0\nvolume     0.000\n"));
}

#[test]
fn volume_is_the_same_from_every_reference() {
    // A sixth of 256 by 128 by 128, and the product in cubic sixteenths.
    let expected = "volume   699050.667\nsixfold  17179869184\n";
    assert_eq!(printed(&["volume", &twin()]), expected);
    for reference in [["0", "0", "0"], ["1024", "1024", "1024"], ["1", "1023", "512"]] {
        assert_eq!(printed(&[&["volume", &twin(), "--reference"], &reference[..]].concat()), expected);
    }
    let place = Place::new("volume");
    let pool = place.example("weir-pool");
    let whole = printed(&["volume", &pool]);
    assert_eq!(whole, printed(&["volume", "--reference", "3", "1024", "77", &pool]));
    let cubic_units = whole.lines().next().and_then(|line| line.strip_prefix("volume   ")).expect("a volume");
    assert!(printed(&["info", &pool]).ends_with(&format!("volume     {cubic_units}\n")), "{whole}");
    assert_eq!(printed(&["volume", &place.example("all-dry")]), "volume   0.000\nsixfold  0\n");
}

#[test]
fn volume_refuses_a_reference_beyond_the_box() {
    for reference in [["1025", "0", "0"], ["0", "1025", "0"], ["0", "0", "4294967295"]] {
        let ran = run(&[&["volume", &twin(), "--reference"], &reference[..]].concat());
        assert_eq!((ran.status, ran.out.as_str()), (1, ""), "{reference:?}");
        assert_eq!(ran.errors, "clearance: refused 13: a coordinate of the reference point is above 1,024\n");
    }
}

#[test]
fn a_pool_that_runs_out_of_the_box_is_not_drawn_but_enquired_about() {
    let place = Place::new("open");
    let directory = place.example("open-pool");
    assert_eq!(printed(&["check", &directory]), "lawful\n");
    let words =
        "clearance: refused 12: the pool runs out of the surveyed box (a corner on an outer face is wet)\n";
    let draw = run(&["draw", &directory]);
    assert_eq!((draw.status, draw.out.as_str(), draw.errors.as_str()), (1, "refused 12\n", words));
    let picture = place.below("picture.png");
    let others: [&[&str]; 6] = [
        &["info", &directory],
        &["volume", &directory],
        &["volume", &directory, "--reference", "0", "0", "1025"],
        &["obj", &directory],
        &["ply", &directory],
        &["render", &directory, &picture],
    ];
    for arguments in others {
        let ran = run(arguments);
        assert_eq!((ran.status, ran.out.as_str(), ran.errors.as_str()), (1, "", words), "{arguments:?}");
    }
    assert!(!place.path.join("picture.png").exists());
    // Where the pool runs out, at x = 0: from the bed up into the water.
    let answer = printed(&["enquire", &directory, "z", "0", "512", "256", "256"]);
    assert!(answer.starts_with("crossing ") && answer.ends_with(" upper end wet\n"), "{answer}");
}

#[test]
fn example_writes_what_it_names_and_nothing_over() {
    let place = Place::new("example");
    let directory = place.example("twin");
    assert_eq!(survey(&place.path.join("twin")), document::twin());
    let again = run(&["example", "all-wet", &directory]);
    assert_eq!(again.status, 2);
    assert!(again.errors.contains("twin/cells: "), "{}", again.errors);
    assert_eq!(survey(&place.path.join("twin")), document::twin());
    let list = printed(&["example"]);
    for example in clearance_tool::examples::EXAMPLES {
        assert!(list.lines().any(|line| line.split(' ').next() == Some(example.name)), "{}", example.name);
    }
}

#[test]
fn help_is_there_for_the_whole_and_for_each_command() {
    let whole = printed(&["--help"]);
    assert_eq!(whole, printed(&["help"]));
    assert_eq!(whole, printed(&["-h"]));
    for command in COMMANDS {
        assert!(whole.lines().any(|line| line.starts_with(&format!("  {command} "))), "{command}");
        let help = printed(&[command, "--help"]);
        assert!(help.starts_with(&format!("usage: clearance {command} ")), "{help}");
        assert_eq!(help, printed(&["help", command]));
    }
}

#[test]
fn version_is_that_of_the_tool_and_of_the_calls() {
    let (tool, calls) = (env!("CARGO_PKG_VERSION"), clearance::VERSION);
    let expected = format!("clearance {tool}, library calls of version {calls}\n");
    for option in ["--version", "-V"] {
        assert_eq!(printed(&[option]), expected);
    }
}

#[test]
fn wrong_command_lines_are_named() {
    let place = Place::new("wrong");
    let picture = place.below("picture.gif");
    let cases: [(&[&str], &str); 26] = [
        (&[], "a command is missing"),
        (&["sound"], "unknown command sound"),
        (&["help", "sound"], "unknown command sound"),
        (&["check"], "DIR is missing"),
        (&["check", "one", "two"], "one argument too many: two"),
        (&["info", "one", "--loud"], "unknown option --loud"),
        (&["enquire", "one", "w", "0", "0", "0", "1"], "AXIS (x, y, z or 0, 1, 2): w is no number that fits"),
        (&["enquire", "one", "x", "0", "-1", "0", "1"], "Y: -1 is no number that fits"),
        (&["volume", "one", "--reference", "0", "0"], "--reference needs X Y Z"),
        (
            &["volume", "one", "--reference", "0", "0", "4294967296"],
            "--reference: 4294967296 is no number that fits",
        ),
        (&["way", "one", "2"], "END is missing"),
        (&["way", "one", "2", "-1"], "END: -1 is no record number and no place x,y,z that fits"),
        (&["way", "one", "1,2", "3"], "START: 1,2 is no record number and no place x,y,z that fits"),
        (
            &["way", "one", "1,2,3", "1,2,4294967296"],
            "END: 1,2,4294967296 is no record number and no place x,y,z that fits",
        ),
        (&["volume", "one", "--json"], "unknown option --json"),
        (&["draw", "one", "--calendar", "two"], "--minute is missing"),
        (&["volume", "one", "--clearance", "deep"], "--clearance: deep is no number that fits"),
        (&["check", "one", "--clearance", "1"], "unknown option --clearance"),
        (&["ply", "one", "--minute", "0", "--clearance", "1"], " does not go with --"),
        (&["render", "one", "two.svg", "--minute", "0"], "--calendar is missing"),
        (&["obj", "one", "--calendar", "two", "--minute", "-1"], "--minute: -1 is no number that fits"),
        (&["calendar"], "FILE is missing"),
        (&["calendar", "one", "--minute", "4294967296"], "--minute: 4294967296 is no number that fits"),
        (&["convert", "one"], "NEW is missing"),
        (&["render", "one", &picture], "a picture's name ends in .png or .svg"),
        (&["example", "ocean", "one"], "no example ocean"),
    ];
    for (arguments, words) in cases {
        let ran = run(arguments);
        assert_eq!((ran.status, ran.out.as_str()), (2, ""), "{arguments:?}");
        assert!(ran.errors.contains(words), "{arguments:?}: {}", ran.errors);
    }
}
