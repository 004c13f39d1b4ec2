//! Calendars: the commands that draw by one, and `calendar`, which shows one in words, against the library's answers.

mod common;

use std::fs;

use clearance::{draw_by_calendar_to_vec, draw_to_vec, Mesh, Refusal};
use clearance_tool::calendar::words;
use clearance_tool::files::tables;
use common::{all_printed, printed, run, Place, Ran};
use surveys::calendars::{self, table, Asked, Period, YEAR_END};
use surveys::plain::periods;
use surveys::seasons;
use surveys::tally::Kinds;

/// The commands that draw the survey in a directory by a calendar, with these options; the last makes a picture.
fn commands<'a>(directory: &'a str, picture: &'a str, options: &[&'a str]) -> [Vec<&'a str>; 4] {
    [
        vec!["draw", directory],
        vec!["obj", directory],
        vec!["ply", directory],
        vec!["render", directory, picture],
    ]
    .map(|command| [command, options.to_vec()].concat())
}

#[test]
fn drawings_are_those_at_the_clearance_in_force() {
    let place = Place::new("by-calendar");
    let directory = place.example("seasons");
    let [calendar, clearance, picture] =
        ["seasons/calendar", "seasons/clearance", "picture.svg"].map(|name| place.below(name));
    let drawings = |options: &[&str]| all_printed(&commands(&directory, &picture, options), &picture);
    let asked = [(84_960, 24.0), (142_559, 24.0), (142_560, 96.0), (162_720, 24.0), (527_039, 48.0f32)];
    for (minute, in_force) in asked {
        // Another clearance stands in its file, then none.
        fs::write(&clearance, 1e9f32.to_le_bytes()).expect("a file");
        let minute = minute.to_string();
        let options = ["--calendar", &calendar, "--minute", &minute];
        let dated = drawings(&options);
        fs::remove_file(&clearance).expect("the file is there");
        assert!(drawings(&options) == dated, "minute {minute}");
        fs::write(&clearance, in_force.to_le_bytes()).expect("a file");
        assert!(drawings(&[]) == dated, "minute {minute}");
    }
}

#[test]
fn a_calendar_goes_with_cells_in_pictures() {
    let place = Place::new("cells");
    let directory = place.example("seasons");
    let [calendar, with, without] =
        ["seasons/calendar", "with.svg", "without.svg"].map(|name| place.below(name));
    let options = ["--calendar", &calendar, "--minute", "142560"];
    printed(&[&["render", &directory, &without], &options[..]].concat());
    printed(&[&["render", &directory, &with, "--cells"], &options[..]].concat());
    assert!(fs::read(with).expect("a picture") != fs::read(without).expect("a picture"));
}

/// Every command that draws refuses alike, and `draw` as the documents' program prints refusals.
fn assert_refused(place: &Place, directory: &str, options: &[&str], words: &str) {
    let picture = place.below("refused.svg");
    let [draw, others @ ..] = commands(directory, &picture, options).map(|command| run(&command));
    let number = words.split(':').next().expect("a refusal");
    assert_eq!((draw.status, draw.out), (1, format!("{number}\n")), "{options:?}");
    assert_eq!(draw.errors, format!("clearance: {words}\n"), "{options:?}");
    for Ran { status, out, errors } in others {
        assert_eq!((status, out, errors), (1, String::new(), format!("clearance: {words}\n")), "{options:?}");
    }
    assert!(!place.path.join("refused.svg").exists());
}

#[test]
fn what_is_refused_is_refused_by_every_command() {
    let place = Place::new("not-by-calendar");
    let [twin, unsounded, open] = ["twin", "refused-7", "all-wet"].map(|name| place.example(name));
    let record = |from, until, clearance| Period { from, until, clearance };
    let kept = [
        ("lawful", table([record(0, 60, 0.0), record(60, 120, f32::NAN)])),
        ("overlapping", table([record(0, 60, 0.0), record(59, 120, 0.0)])),
        ("empty", vec![]),
    ];
    let [lawful, overlapping, empty] = kept.map(|(name, calendar)| {
        fs::write(place.path.join(name), calendar).expect("a file");
        place.below(name)
    });
    let calendar = "refused 16: the calendar is not whole records or breaks a rule of calendars";
    let minute = "refused 17: the minute is in no record of the calendar";
    let clearance = "refused 8: the clearance is not finite or beyond ±1,048,576";
    let sounding = "refused 7: a sounding in force is not finite or beyond ±1,048,576";
    let at_box = "refused 12: the pool runs out of the surveyed box (a corner on an outer face is wet)";
    let cases = [
        (&twin, &overlapping, "0", calendar),
        (&twin, &lawful, "120", minute),
        (&twin, &lawful, "4294967295", minute),
        (&twin, &empty, "0", minute),
        (&twin, &lawful, "60", clearance),
        (&unsounded, &overlapping, "0", sounding),
        (&open, &overlapping, "0", calendar),
        (&open, &lawful, "120", minute),
        (&open, &lawful, "59", at_box),
    ];
    for (directory, file, minute, words) in cases {
        assert_refused(&place, directory, &["--calendar", file, "--minute", minute], words);
    }
}

#[test]
fn a_calendar_that_cannot_be_read_is_an_error() {
    let place = Place::new("no-calendar");
    let directory = place.example("twin");
    let [nowhere, picture] = ["nowhere", "picture.svg"].map(|name| place.below(name));
    let options = ["--calendar", &nowhere, "--minute", "0"];
    for command in commands(&directory, &picture, &options).into_iter().chain([vec!["calendar", &nowhere]]) {
        let Ran { status, out, errors } = run(&command);
        assert_eq!((status, out.as_str()), (2, ""), "{command:?}");
        assert!(errors.contains("/nowhere: "), "{command:?}: {errors}");
    }
}

#[test]
fn a_missing_table_is_missing_with_a_calendar_too() {
    let place = Place::new("no-table");
    let directory = place.example("seasons");
    let calendar = place.below("seasons/calendar");
    fs::remove_file(place.path.join("seasons/corners")).expect("the file is there");
    fs::remove_file(place.path.join("seasons/clearance")).expect("the file is there");
    let options = ["--calendar", &calendar, "--minute", "142560"];
    let [draw, others @ ..] =
        commands(&directory, &place.below("picture.svg"), &options).map(|command| run(&command));
    assert_eq!((draw.status, draw.out.as_str()), (1, "refused 2\n"));
    let missing = format!("clearance: {directory}/corners is missing and counts as empty\n");
    assert!(
        draw.errors.starts_with(&missing) && !draw.errors.contains("seasons/clearance"),
        "{}",
        draw.errors
    );
    for Ran { status, errors, .. } in others {
        assert!(status == 2 && errors.contains("/corners: "), "{errors}");
    }
}

#[test]
fn calendar_shows_the_example() {
    let place = Place::new("words");
    place.example("seasons");
    let calendar = place.below("seasons/calendar");
    let expected = "lawful: 4 records\n\
        gap: from 0 (day 1 00:00) until 84960 (day 60 00:00)\n\
        record 0: from 84960 (day 60 00:00) until 142560 (day 100 00:00): clearance 24\n\
        record 1: from 142560 (day 100 00:00) until 162720 (day 114 00:00): clearance 96\n\
        record 2: from 162720 (day 114 00:00) until 437760 (day 305 00:00): clearance 24\n\
        gap: from 437760 (day 305 00:00) until 482400 (day 336 00:00)\n\
        record 3: from 482400 (day 336 00:00) until 527040 (day 367 00:00): clearance 48\n";
    assert_eq!(printed(&["calendar", &calendar]), expected);
    let asked = printed(&["calendar", "--minute", "142561", &calendar]);
    let said = "minute 142561 (day 100 00:01): record 1 is in force, clearance 96\n";
    assert_eq!(asked, format!("{expected}{said}"));
}

/// The calendar is lawful and shown all the same.
#[test]
fn calendar_ends_with_1_at_a_minute_that_is_refused() {
    let place = Place::new("minutes");
    let calendar = place.below("calendar");
    let record = |from, until, clearance| Period { from, until, clearance };
    fs::write(&calendar, table([record(0, 60, 0.5), record(60, 120, f32::NAN)])).expect("a file");
    let shown = printed(&["calendar", &calendar]);
    let asked = [
        ("59", 0, "59 (day 1 00:59): record 0 is in force, clearance 0.5"),
        ("60", 1, "60 (day 1 01:00): record 1 is in force, clearance NaN, refused by 8"),
        ("120", 1, "120 (day 1 02:00): no record is in force; a drawing is refused by 17"),
    ];
    for (minute, status, said) in asked {
        let ran = run(&["calendar", &calendar, "--minute", minute]);
        let expected = format!("{shown}minute {said}\n");
        assert_eq!((ran.status, ran.out, ran.errors), (status, expected, String::new()));
    }
}

#[test]
fn calendar_refuses_and_says_why() {
    let place = Place::new("why");
    let calendar = place.below("broken");
    fs::write(&calendar, [table([Period { from: 60, until: 60, clearance: 0.0 }]), vec![0]].concat())
        .expect("a file");
    for options in [&[][..], &["--minute", "60"]] {
        let ran = run(&[&["calendar", &calendar], options].concat());
        let expected = "refused 16: the calendar is not whole records or breaks a rule of calendars\n\
            record 0: from 60 (day 1 01:00) until 60 (day 1 01:00): its from is not below its until\n\
            behind 1 whole record: 1 byte of another\n";
        assert_eq!((ran.status, ran.out.as_str(), ran.errors.as_str()), (1, expected, ""));
    }
}

/// What a text says of a minute: its last line is 'minute N (...): record K is in force, clearance C', or that there is none.
fn said_in_force(text: &str) -> Option<f32> {
    let (_, said) = text.lines().last()?.split_once("): ")?;
    let (_, clearance) = said.split_once(" is in force, clearance ")?;
    clearance.split(',').next()?.parse().ok()
}

/// The first and the last minute of a line's stretch: 'record K: from N (...) until N (...)'.
fn said_stretch(line: &str) -> [u32; 2] {
    let number = |after: &str| {
        let (_, rest) = line.split_once(after).unwrap_or_else(|| panic!("{line}"));
        rest.split(' ').next().and_then(|number| number.parse().ok()).unwrap_or_else(|| panic!("{line}"))
    };
    [number("from "), number("until ")]
}

/// The lines of a lawful calendar follow on each other from one end of the year to the other, and its records are among them.
fn assert_whole_year(calendar: &[u8], text: &str, what: &str) {
    let lines: Vec<&str> = text.lines().filter(|line| line.contains(": from ")).collect();
    let stretches: Vec<[u32; 2]> = lines.iter().map(|line| said_stretch(line)).collect();
    assert_eq!([stretches[0][0], stretches[stretches.len() - 1][1]], [0, YEAR_END], "{what}");
    assert!(stretches.windows(2).all(|pair| pair[0][1] == pair[1][0]), "{what}: {text}");
    assert!(
        lines.windows(2).all(|pair| pair.iter().any(|line| line.starts_with("record "))),
        "{what}: {text}"
    );
    let records: Vec<&&str> = lines.iter().filter(|line| line.starts_with("record ")).collect();
    assert_eq!(records.len(), calendar.len() / Period::BYTES, "{what}");
    for (number, (line, period)) in records.into_iter().zip(periods(calendar)).enumerate() {
        let Period { from, until, clearance } = period;
        assert_eq!(said_stretch(line), [from, until], "{what}");
        assert!(line.starts_with(&format!("record {number}: from ")), "{what}: {line}");
        let mark = if clearance.abs() <= 1_048_576.0 { "" } else { ", refused by 8 when in force" };
        assert!(line.ends_with(&format!(": clearance {clearance}{mark}")), "{what}: {line}");
    }
}

/// What the library makes of the calendar, by drawing one survey.
fn by_library(calendar: &[u8], minute: u32) -> Result<Mesh, Refusal> {
    draw_by_calendar_to_vec(tables(&seasons::survey()), calendar, minute)
}

fn assert_as_library(Asked { calendar, minute, kind, .. }: &Asked, what: &str) {
    let library = by_library(calendar, *minute);
    let asked = words(calendar, Some(*minute));
    assert_eq!(asked.is_err(), library.is_err(), "{what}: {kind:?}");
    let (Ok(text) | Err(text)) = asked;
    if text.starts_with("refused 16: ") {
        assert!(text.lines().count() > 1, "{what}: {text}");
        return assert_eq!(library, Err(Refusal::Calendar), "{what}: {kind:?}");
    }
    assert_whole_year(calendar, &text, what);
    let said = match said_in_force(&text) {
        Some(clearance) => draw_to_vec(tables(&seasons::survey()), clearance),
        None => Err(Refusal::Minute),
    };
    assert_eq!(said, library, "{what}: {kind:?}");
}

#[test]
fn the_words_of_random_calendars_are_as_the_library_answers() {
    let mut kinds = Kinds::default();
    for seed in 0..2_000 {
        let clearance = [0.0, 0.1, -0.7, f32::NAN, 1e7][seed as usize % 5];
        for asked in [calendars::holding(seed, clearance), calendars::refused(seed, clearance)] {
            assert_as_library(&asked, &format!("seed {seed}"));
            kinds.add(asked.kind);
        }
        let (calendar, minute) = calendars::corrupted(seed, clearance);
        assert_eq!(
            words(&calendar, None).is_err(),
            by_library(&calendar, minute) == Err(Refusal::Calendar),
            "seed {seed}"
        );
    }
    kinds.assert_all_met(40, "calendars in words");
}

/// Of calendars that can be judged by hand each is shown, or refused, as it is due.
#[test]
fn the_words_of_known_calendars_are_as_said_by_hand() {
    for known in seasons::known().into_iter().filter(|known| known.calendar.len() < 1_000) {
        let asked = words(&known.calendar, Some(known.minute));
        let what = format!("{}, minute {}: {asked:?}", known.name, known.minute);
        let is_lawful = known.due.is_ok_and(|clearance| clearance.abs() <= 1_048_576.0);
        assert_eq!(asked.is_ok(), is_lawful, "{what}");
        let (Ok(text) | Err(text)) = asked;
        assert_eq!(text.starts_with("refused 16: "), known.due == Err(16), "{what}");
        let bits = |clearance: Option<f32>| clearance.map(f32::to_bits);
        assert_eq!(bits(said_in_force(&text)), bits(known.due.ok()), "{what}");
    }
}
