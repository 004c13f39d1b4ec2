//! The drawing program, as the proved crate `draw` builds it: what it prints in a directory, against the independent Rust drawing.

mod tables;

use std::path::{Path, PathBuf};
use std::process::Command;

use surveys::amendments::some_hold;
use surveys::{damage, document, generate, resounded, Survey};
use tables::independent;

/// What the program lends: 2,048 points and 4,096 triangles.
const POINTS: usize = 3 * 2_048;
const TRIANGLES: usize = 3 * 4_096;

fn root() -> PathBuf {
    Path::new(env!("CARGO_MANIFEST_DIR")).join("../..")
}

/// The compiled program; `rt run` writes it, and runs it where there is no survey.
fn program() -> PathBuf {
    let made = Command::new("rt")
        .arg("run")
        .current_dir(root().join("crates/draw"))
        .output()
        .expect("the Rattle toolchain");
    assert!(made.status.success(), "rt run failed in crates/draw");
    root().join("crates/draw/out/draw")
}

/// What the program prints in a directory.
fn printed_in(program: &Path, directory: &Path) -> String {
    let output = Command::new(program).current_dir(directory).output().expect("the program runs");
    assert!(output.status.success());
    String::from_utf8(output.stdout).expect("text")
}

/// The program's files, by name; a missing one is `None`.
type Files<'a> = [(&'static str, Option<&'a [u8]>); 4];

/// What the program prints where these files stand, in a directory that `prepare` may change.
fn printed_after(program: &Path, files: Files, prepare: impl FnOnce(&Path)) -> String {
    let directory = std::env::temp_dir().join(format!("clearance-{}", std::process::id()));
    std::fs::create_dir_all(&directory).expect("a directory");
    for (name, bytes) in files {
        let path = directory.join(name);
        match bytes {
            Some(bytes) => std::fs::write(path, bytes).expect("a file"),
            None => drop(std::fs::remove_file(path)),
        }
    }
    prepare(&directory);
    let text = printed_in(program, &directory);
    std::fs::remove_dir_all(&directory).expect("the directory can be removed");
    text
}

/// What the program prints where these files stand.
fn printed(program: &Path, files: Files) -> String {
    printed_after(program, files, |_| {})
}

/// The files of a survey, with this clearance.
fn files<'a>(survey: &'a Survey, clearance: Option<&'a [u8]>) -> Files<'a> {
    [
        ("cells", Some(&survey.cells)),
        ("corners", Some(&survey.corners)),
        ("amendments", Some(&survey.amendments)),
        ("clearance", clearance),
    ]
}

/// The same files without this one.
fn without<'a>(mut files: Files<'a>, missing: &str) -> Files<'a> {
    files.iter_mut().filter(|(name, _)| *name == missing).for_each(|(_, bytes)| *bytes = None);
    files
}

/// The listing by the independent drawing.
fn listing(survey: &Survey) -> String {
    let (mut points, mut triangles) = (vec![0.0; POINTS], vec![0; TRIANGLES]);
    let drawn = drawing::draw(independent(survey), survey.clearance, &mut points, &mut triangles);
    if drawn.number != 0 {
        return format!("refused {}\n", drawn.number);
    }
    let mut text = format!("{} {}\n", drawn.points, drawn.triangles);
    for p in points.chunks(3).take(drawn.points as usize) {
        text += &format!("v {:08x} {:08x} {:08x}\n", p[0].to_bits(), p[1].to_bits(), p[2].to_bits());
    }
    for t in triangles.chunks(3).take(drawn.triangles as usize) {
        text += &format!("t {} {} {}\n", t[0], t[1], t[2]);
    }
    text
}

fn assert_printed(program: &Path, survey: &Survey, what: &str) -> String {
    let text = printed(program, files(survey, Some(&survey.clearance.to_le_bytes())));
    assert_eq!(text, listing(survey), "{what}");
    text
}

/// Files that are missing or of another length.
fn assert_files_judged(program: &Path, twin: &Survey) {
    let zero = 0f32.to_le_bytes();
    let whole = files(twin, Some(&zero));
    let missing = |name| printed(program, without(whole, name));
    assert_eq!(missing("cells"), "refused 1\n");
    assert_eq!(missing("corners"), "refused 2\n");
    assert_eq!(missing("clearance"), "refused 8\n");
    assert_eq!(missing("amendments"), printed(program, whole));
    // A directory is there and can't be read.
    let unreadable =
        |directory: &Path| std::fs::create_dir(directory.join("amendments")).expect("a directory");
    assert_eq!(printed_after(program, without(whole, "amendments"), unreadable), "refused 14\n");
    assert_eq!(printed(program, whole.map(|(name, _)| (name, None))), "refused 1\n");
    assert_eq!(printed(program, files(twin, Some(&zero[..3]))), "refused 8\n");
    let too_many_cells = Survey { cells: vec![0; 8_200], ..twin.clone() };
    assert_eq!(printed(program, without(files(&too_many_cells, None), "amendments")), "refused 1\n");
    // All are for the corner (0, 0, 0), which stays dry.
    let amended = |bytes| {
        let survey = Survey { amendments: vec![0; bytes], ..twin.clone() };
        assert_printed(program, &survey, &format!("{bytes} bytes of amendments"))
    };
    assert_eq!(amended(12_000), printed(program, whole));
    for bytes in [1, 12_001, 12_012, 20_000] {
        assert_eq!(amended(bytes), "refused 14\n", "{bytes} bytes of amendments");
    }
}

#[test]
fn listings_and_refusals() {
    let program = program();
    let twin = document::twin();
    let whole = std::fs::read_to_string(root().join("crates/draw/stdout")).expect("document 01's listing");
    assert_eq!(assert_printed(&program, &twin, "the twin survey"), whole);
    assert_eq!(printed_in(&program, &root().join("examples/twin")), whole);
    let deepened = assert_printed(&program, &resounded::deepened_twin(), "the twin survey deepened");
    assert_eq!(printed_in(&program, &root().join("examples/resounded")), deepened);
    assert_files_judged(&program, &twin);
    let [mut drawn, mut amended, mut open] = [0; 3];
    for seed in 0..60 {
        let survey = generate::mixed(seed);
        match assert_printed(&program, &survey, &format!("mixed, seed {seed}")).as_str() {
            "refused 12\n" => open += 1,
            text if text.starts_with("refused") => {}
            _ => {
                drawn += 1;
                amended += usize::from(some_hold(&survey));
            }
        }
        assert_printed(&program, &damage::damaged(seed).survey, &format!("damaged, seed {seed}"));
    }
    let seen = format!("{drawn} of 60 drawn, {amended} of these amended, {open} refused by 12");
    println!("the program: {seen}");
    assert!(drawn > 45 && amended > 15 && open > 4, "{seen}");
    for example in document::checked() {
        let text = assert_printed(&program, &example.survey, &example.name);
        match example.refusal {
            0 => assert!(!text.starts_with("refused"), "{}", example.name),
            refusal => assert_eq!(text, format!("refused {refusal}\n"), "{}", example.name),
        }
    }
    for seed in 0..3 {
        assert_printed(&program, &generate::long_loop(seed), &format!("long loop, seed {seed}"));
    }
}
