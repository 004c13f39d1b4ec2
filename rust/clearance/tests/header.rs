//! The C header, the archive and the Rust library have the same version and name the same refusals, by number and words, and the same ends by number.

use std::path::Path;
use std::process::Command;

use clearance::{End, Refusal, VERSION};

const HEADER: &str = include_str!("../../../include/clearance.h");

/// What the header says in a C program: its version, and the words of each number, a line each.
fn said_in_c(numbers: &[u32]) -> String {
    let root = Path::new(env!("CARGO_MANIFEST_DIR")).join("../..");
    let program = Path::new(env!("CARGO_TARGET_TMPDIR")).join("words");
    let mut compiler = Command::new("cc");
    compiler.args(["-std=c99", "-Wall", "-Wextra", "-Wpedantic", "-Werror"]);
    compiler.arg("-I").arg(root.join("include")).arg(root.join("tests/c/words.c")).arg("-o").arg(&program);
    assert!(compiler.status().expect("the C compiler (cc) runs").success());
    let said = Command::new(program).args(numbers.iter().map(u32::to_string)).output().expect("it runs");
    assert!(said.status.success());
    String::from_utf8(said.stdout).expect("text")
}

#[test]
fn the_archive_fits() {
    assert_eq!(clearance::version(), VERSION);
}

#[test]
fn the_header_has_the_version_and_the_words() {
    let numbers: Vec<u32> = Refusal::ALL.iter().map(|refusal| refusal.number()).collect();
    let words: String = Refusal::ALL.iter().map(|refusal| format!("{refusal}\n")).collect();
    assert_eq!(said_in_c(&numbers), format!("{VERSION}\n{words}"));
    let none = "no refusal has this number\n";
    assert_eq!(said_in_c(&[0, 22, u32::MAX]), format!("{VERSION}\nnothing is refused\n{none}{none}"));
}

/// A refusal as the header's enum has it: `CLEARANCE_CELL_TABLE = 1, /* words */`; the last has no comma.
fn line_of(refusal: Refusal, comma: &str) -> String {
    let mut name = String::from("CLEARANCE");
    for letter in format!("{refusal:?}").chars() {
        if letter.is_uppercase() {
            name.push('_');
        }
        name.extend(letter.to_uppercase());
    }
    format!("{name} = {}{comma} /* {refusal} */", refusal.number())
}

#[test]
fn the_header_has_the_refusals_in_order() {
    let body = HEADER.split_once("enum clearance_refusal {").expect("the enum").1;
    let body = body.split_once("};").expect("its end").0;
    let lines: Vec<&str> = body.lines().map(str::trim).filter(|line| !line.is_empty()).collect();
    let last = Refusal::ALL.len() - 1;
    let expected = Refusal::ALL.iter().enumerate();
    let expected: Vec<String> =
        expected.map(|(n, &refusal)| line_of(refusal, if n < last { "," } else { "" })).collect();
    assert_eq!(lines, expected);
}

#[test]
fn the_header_has_the_ends() {
    let expected = format!(
        "enum clearance_end {{\n    CLEARANCE_LOWER_END = {},\n    CLEARANCE_UPPER_END = {}\n}};",
        End::Lower as u32,
        End::Upper as u32
    );
    assert!(HEADER.contains(&expected), "{expected}");
}

#[test]
fn numbers_and_refusals_are_one_to_one() {
    let numbers = Refusal::ALL.iter().map(|refusal| refusal.number());
    assert!(numbers.clone().eq(1..=21));
    assert!(numbers.map(Refusal::from_number).eq(Refusal::ALL.iter().copied().map(Some)));
    assert_eq!([0, 22, u32::MAX].map(Refusal::from_number), [None; 3]);
}
