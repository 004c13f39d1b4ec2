//! Amendments, which every command that reads a survey takes into account, and corner tables from before them.

mod common;

use std::fs;

use common::{printed, run, survey, text, Place, Ran};
use surveys::document;
use surveys::survey::without_days;

/// The commands that read the survey in a directory, with what else they take, but for `render`, which makes a file.
fn commands(directory: &str) -> [Vec<&str>; 8] {
    [
        vec!["check", directory],
        vec!["draw", directory],
        vec!["info", directory],
        vec!["volume", directory],
        vec!["way", directory, "31", "31"],
        vec!["obj", directory],
        vec!["ply", directory],
        vec!["enquire", directory, "x", "0", "512", "512", "256"],
    ]
}

#[test]
fn amendments_are_read_by_every_command() {
    let place = Place::new("amended");
    let directory = place.example("resounded");
    let amendments = place.path.join("resounded/amendments");
    let quarter = "4 4\nv 42800000 44000000 44000000\n";
    assert!(printed(&["draw", &directory]).starts_with(quarter));
    let edge = ["enquire", &directory, "x", "0", "512", "512", "256"];
    assert_eq!(printed(&edge), "crossing 0 64 512 512 upper end wet\n");
    assert!(
        printed(&["info", &directory]).contains("corners    46\namendments 3 (1 in force)\nclearance  0\n")
    );
    // A sixth of 384 by 192 by 192.
    assert!(printed(&["volume", &directory]).starts_with("volume   2359296.000\n"));
    assert!(printed(&["obj", &directory]).starts_with("v 64 512 512\n"));
    assert!(printed(&["ply", &directory]).contains("end_header\n64 512 512\n"));
    let way = ["way", &directory, "31", "31", "--clearance", "2"];
    assert_eq!(printed(&way), "corner 31 at 256,512,512\n0 steps, 0 units long\n");
    let pictures = ["with.svg", "without.svg"].map(|name| place.below(name));
    assert_eq!(printed(&["render", &directory, &pictures[0]]), "");
    fs::remove_file(amendments).expect("the file is there");
    assert_eq!(printed(&["render", &directory, &pictures[1]]), "");
    let [with, without] = pictures.map(|picture| fs::read(picture).expect("a picture"));
    assert!(with != without);
    assert_eq!(printed(&edge), "crossing 0 128 512 512 upper end wet\n");
    assert!(run(&way).errors.starts_with("clearance: refused 20: "));
}

#[test]
fn a_missing_file_of_amendments_counts_as_empty_for_every_command() {
    let place = Place::new("unamended");
    let directory = place.example("twin");
    let amendments = place.path.join("twin/amendments");
    assert!(!amendments.exists());
    let missing = commands(&directory).map(|command| printed(&command));
    assert!(!missing.concat().contains("amendments"), "{missing:?}");
    fs::write(&amendments, []).expect("a file");
    assert_eq!(commands(&directory).map(|command| printed(&command)), missing);
}

#[test]
fn amendments_that_cannot_be_read_are_an_error_for_every_command() {
    let place = Place::new("unreadable");
    let directory = place.example("twin");
    fs::create_dir(place.path.join("twin/amendments")).expect("a directory");
    let picture = place.below("picture.svg");
    let render = vec!["render", &directory, &picture];
    for command in commands(&directory).into_iter().chain([render]) {
        let Ran { status, out, errors } = run(&command);
        assert_eq!((status, out.as_str()), (2, ""), "{command:?}");
        assert!(errors.contains("/amendments: "), "{command:?}: {errors}");
    }
}

#[test]
fn amendments_that_are_not_lawful_are_refused_by_every_command() {
    let place = Place::new("refused");
    let examples = [
        ("refused-14", "refused 14: the amendment table is not whole records or over 12,000 bytes\n"),
        ("refused-15", "refused 15: an amendment is at no cell's corner\n"),
    ];
    for (name, words) in examples {
        let directory = place.example(name);
        let [check, draw, others @ ..] = commands(&directory).map(|command| run(&command));
        assert_eq!((check.status, check.out.as_str()), (1, words));
        assert_eq!((draw.status, draw.out), (1, format!("{}\n", &words[..10])));
        let render = run(&["render", &directory, &place.below("picture.svg")]);
        for Ran { status, out, errors } in others.into_iter().chain([render]) {
            assert_eq!((status, out, errors), (1, String::new(), format!("clearance: {words}")));
        }
    }
}

#[test]
fn no_example_is_written_beside_amendments_or_a_calendar_of_another_survey() {
    for name in ["amendments", "calendar"] {
        let place = Place::new(&format!("beside-{name}"));
        fs::write(place.path.join(name), [0; 12]).expect("a file");
        let ran = run(&["example", "twin", text(&place.path)]);
        assert_eq!((ran.status, ran.out.as_str()), (2, ""));
        assert!(ran.errors.contains(&format!("/{name}: ")), "{}", ran.errors);
        assert!(!place.path.join("cells").exists());
    }
}

#[test]
fn convert_gives_an_old_table_days() {
    let place = Place::new("convert");
    let directory = place.example("twin");
    let [old, new] = ["twin/corners", "twin/corners-12"].map(|name| place.below(name));
    let undated = without_days(&document::twin().corners);
    fs::write(&old, &undated).expect("a file");
    assert_eq!(
        run(&["check", &directory]).out,
        "refused 2: the corner table is empty, not whole records, or over 58,464 bytes\n"
    );
    assert_eq!(printed(&["convert", &old, &new]), "");
    assert_eq!(fs::read(&old).expect("the old table"), undated);
    fs::rename(&new, &old).expect("both are there");
    assert_eq!(survey(&place.path.join("twin")), document::twin());
}

#[test]
fn convert_destroys_nothing() {
    let place = Place::new("unconverted");
    place.example("twin");
    let [corners, undated, new] = ["twin/corners", "undated", "new"].map(|name| place.below(name));
    fs::write(&undated, without_days(&document::twin().corners)).expect("a file");
    let again = run(&["convert", &corners, &new]);
    assert_eq!((again.status, again.out.as_str()), (2, ""));
    assert_eq!(again.errors, format!("clearance: {corners} has records of 12 bytes already\n"));
    assert!(!place.path.join("new").exists());
    // Neither over another file nor over itself.
    for kept in [&corners, &undated] {
        let before = fs::read(kept).expect("a file");
        let over = run(&["convert", &undated, kept]);
        assert_eq!((over.status, over.out.as_str()), (2, ""));
        assert!(over.errors.contains("File exists"), "{}", over.errors);
        assert!(fs::read(kept).expect("a file") == before);
    }
    let nowhere = run(&["convert", &place.below("nowhere"), &new]);
    assert_eq!(nowhere.status, 2);
    assert!(nowhere.errors.contains("/nowhere: "), "{}", nowhere.errors);
}
