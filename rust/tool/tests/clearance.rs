//! The clearance: from its file, where it must not be text, or from the command line.

mod common;

use std::fs;

use common::{all_printed, printed, run, Place, Ran};

/// The commands that need a clearance, with these options; the last makes a picture.
fn commands<'a>(directory: &'a str, picture: &'a str, options: &[&'a str]) -> [Vec<&'a str>; 8] {
    [
        vec!["draw", directory],
        vec!["enquire", directory, "x", "256", "512", "512", "256"],
        vec!["info", directory],
        vec!["volume", directory],
        vec!["way", directory, "31", "31"],
        vec!["obj", directory],
        vec!["ply", directory],
        vec!["render", directory, picture],
    ]
    .map(|command| [command, options.to_vec()].concat())
}

#[test]
fn a_clearance_by_hand_is_as_one_in_the_file() {
    let place = Place::new("by-hand");
    let directory = place.example("twin");
    let [file, picture] = ["twin/clearance", "picture.svg"].map(|name| place.below(name));
    let answers = |options: &[&str]| all_printed(&commands(&directory, &picture, options), &picture);
    let mut seen = Vec::new();
    for (text, clearance) in [("0", 0.0f32), ("-0.5", -0.5), ("0.1", 0.1), ("9e-1", 0.9)] {
        fs::write(&file, clearance.to_le_bytes()).expect("a file");
        let stored = answers(&[]);
        // Another clearance stands in the file, then text, then there is none.
        fs::write(&file, 1e9f32.to_le_bytes()).expect("a file");
        assert!(answers(&["--clearance", text]) == stored, "{text}");
        fs::write(&file, "24.0").expect("a file");
        assert!(answers(&["--clearance", text]) == stored, "{text}");
        fs::remove_file(&file).expect("the file is there");
        assert!(answers(&["--clearance", text]) == stored, "{text}");
        assert!(!seen.contains(&stored), "{text}: as at another clearance");
        seen.push(stored);
    }
    assert_eq!(
        printed(&["volume", &directory, "--clearance", "0"]),
        "volume   699050.667\nsixfold  17179869184\n"
    );
}

#[test]
fn a_clearance_by_hand_is_refused_as_one_in_the_file() {
    let place = Place::new("by-hand-refused");
    let directory = place.example("twin");
    let picture = place.below("picture.svg");
    let words = "clearance: refused 8: the clearance is not finite or beyond ±1,048,576\n";
    for text in ["1048577", "-1048577", "nan", "-inf"] {
        let [draw, others @ ..] =
            commands(&directory, &picture, &["--clearance", text]).map(|command| run(&command));
        assert_eq!(
            (draw.status, draw.out.as_str(), draw.errors.as_str()),
            (1, "refused 8\n", words),
            "{text}"
        );
        for Ran { status, out, errors } in others {
            assert_eq!((status, out.as_str(), errors.as_str()), (1, "", words), "{text}");
        }
    }
    assert!(!place.path.join("picture.svg").exists());
}

/// Another clearance stands in the file, then text, then there is none.
#[test]
fn a_convoys_clearances_are_all_by_hand() {
    let place = Place::new("by-hand-several");
    let directory = place.example("twin");
    let convoy = ["way", &directory, "31", "32", "--clearance", "-2", "--clearance", "-1.5"];
    let shown = printed(&convoy);
    assert!(shown.ends_with("\nconvoy of 2; the greatest clearance is -1.5\n"), "{shown}");
    let file = place.below("twin/clearance");
    fs::write(&file, "24.0").expect("a file");
    assert_eq!(printed(&convoy), shown);
    fs::remove_file(&file).expect("the file is there");
    assert_eq!(printed(&convoy), shown);
}

#[test]
fn way_alone_takes_several_clearances() {
    let place = Place::new("several");
    let directory = place.example("twin");
    let picture = place.below("picture.svg");
    for command in commands(&directory, &picture, &["--clearance", "0", "--clearance", "0"]) {
        let Ran { status, errors, .. } = run(&command);
        if command[0] == "way" {
            assert_eq!((status, errors.as_str()), (0, ""));
        } else {
            assert_eq!(status, 2, "{command:?}");
            assert!(errors.starts_with("clearance: --clearance is there twice\n"), "{command:?}: {errors}");
        }
    }
    assert!(!place.path.join("picture.svg").exists());
}

/// Each command names the file, what stands in it, and how to give that.
fn assert_text_is_named(ran: Ran, file: &str, number: &str) {
    let words = format!(
        "clearance: {file} holds the text {number}, and not a clearance as four bytes of binary32, little-endian; \
         give it as --clearance {number}\n"
    );
    assert_eq!((ran.status, ran.out, ran.errors), (2, String::new(), words));
}

#[test]
fn a_number_as_text_is_no_clearance() {
    let place = Place::new("text");
    let directory = place.example("twin");
    let [file, picture] = ["twin/clearance", "picture.svg"].map(|name| place.below(name));
    let texts = [
        ("24.0", "24.0"),
        ("0.5\n", "0.5"),
        ("24,0", "24.0"),
        ("-3\r\n", "-3"),
        (" +7 ", "+7"),
        ("1e99", "1e99"),
        ("\t\n.5", ".5"),
        ("nan\n", "nan"),
    ];
    for (text, number) in texts {
        fs::write(&file, text).expect("a file");
        for command in commands(&directory, &picture, &[]) {
            assert_text_is_named(run(&command), &file, number);
        }
        // What needs no clearance does not look at it.
        assert_eq!(printed(&["check", &directory]), "lawful\n");
    }
    assert!(!place.path.join("picture.svg").exists());
}

/// Document 01 refuses another length than four bytes, and `draw` prints its program's listing.
#[test]
fn text_of_another_length_is_named_by_all_but_draw() {
    let place = Place::new("text-length");
    let directory = place.example("twin");
    let [file, picture] = ["twin/clearance", "picture.svg"].map(|name| place.below(name));
    for (text, number) in [("0", "0"), ("24\n", "24"), ("24.0\n", "24.0"), ("-1048576.125", "-1048576.125")] {
        fs::write(&file, text).expect("a file");
        let [draw, others @ ..] = commands(&directory, &picture, &[]).map(|command| run(&command));
        assert_eq!((draw.status, draw.out.as_str()), (1, "refused 8\n"), "{text:?}");
        for ran in others {
            assert_text_is_named(ran, &file, number);
        }
    }
}

/// Four bytes that look like text, but spell no number, are the clearance that they are.
#[test]
fn letters_that_spell_no_number_are_a_clearance() {
    let place = Place::new("letters");
    let directory = place.example("twin");
    let [file, picture] = ["twin/clearance", "picture.svg"].map(|name| place.below(name));
    let answers = |options: &[&str]| all_printed(&commands(&directory, &picture, options), &picture);
    // As binary32: 0, numbers next to 0, and 0.6254902 for the last.
    for bytes in [*b"\0\0\0\0", *b"    ", *b"2 4 ", *b"1.2.", *b"v1.0", *b"   ?"] {
        fs::write(&file, bytes).expect("a file");
        let clearance = f32::from_le_bytes(bytes).to_string();
        assert!(answers(&[]) == answers(&["--clearance", &clearance]), "{clearance}");
    }
}
