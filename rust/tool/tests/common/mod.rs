//! Runs the tool as a process.

#![allow(dead_code)] // no test uses all of it

use std::path::{Path, PathBuf};
use std::process::Command;

use clearance::Mesh;
use clearance_tool::files::tables;
use surveys::Survey;

/// What a run printed, and its exit status.
pub struct Ran {
    pub status: i32,
    pub out: String,
    pub errors: String,
}

/// Runs the tool with these arguments.
pub fn run(arguments: &[&str]) -> Ran {
    let output =
        Command::new(env!("CARGO_BIN_EXE_clearance")).args(arguments).output().expect("the tool runs");
    Ran {
        status: output.status.code().expect("an exit status"),
        out: String::from_utf8(output.stdout).expect("text"),
        errors: String::from_utf8(output.stderr).expect("text"),
    }
}

/// Runs the tool where all is well; what it printed.
pub fn printed(arguments: &[&str]) -> String {
    let ran = run(arguments);
    assert_eq!((ran.status, ran.errors.as_str()), (0, ""), "{arguments:?}");
    ran.out
}

/// What commands print where all is well, and the picture that one of them makes.
pub fn all_printed(commands: &[Vec<&str>], picture: &str) -> Vec<String> {
    let texts = commands.iter().map(|command| printed(command));
    let mut texts: Vec<String> = texts.collect();
    texts.push(std::fs::read_to_string(picture).expect("a picture"));
    texts
}

/// The project's directory.
pub fn root() -> PathBuf {
    Path::new(env!("CARGO_MANIFEST_DIR")).join("../..")
}

/// The directory of the twin survey, as an argument.
pub fn twin() -> String {
    text(&root().join("examples/twin")).to_owned()
}

/// A path as an argument.
pub fn text(path: &Path) -> &str {
    path.to_str().expect("a path of plain letters")
}

/// A new directory that goes away with this value.
pub struct Place {
    pub path: PathBuf,
}

impl Place {
    /// The name tells tests apart that run at once.
    pub fn new(name: &str) -> Place {
        let path = std::env::temp_dir().join(format!("clearance-tool-{}-{name}", std::process::id()));
        std::fs::create_dir_all(&path).expect("a directory");
        Place { path }
    }

    /// A path below it, as an argument.
    pub fn below(&self, name: &str) -> String {
        text(&self.path.join(name)).to_owned()
    }

    /// Writes an example into a directory below; its path as an argument.
    pub fn example(&self, name: &str) -> String {
        let directory = self.below(name);
        assert_eq!(printed(&["example", name, &directory]), "");
        directory
    }
}

impl Drop for Place {
    fn drop(&mut self) {
        // Nothing is lost if a directory for temporary files stays.
        drop(std::fs::remove_dir_all(&self.path));
    }
}

/// The survey in a directory.
pub fn survey(directory: &Path) -> Survey {
    let read = |name: &str| std::fs::read(directory.join(name)).expect("a file of the survey");
    let clearance = read("clearance").try_into().expect("four bytes");
    Survey {
        cells: read("cells"),
        corners: read("corners"),
        amendments: std::fs::read(directory.join("amendments")).unwrap_or_default(),
        clearance: f32::from_le_bytes(clearance),
    }
}

/// The drawing of a survey that is drawn, by the library.
pub fn drawn(survey: &Survey) -> Mesh {
    clearance::draw_to_vec(tables(survey), survey.clearance).expect("a survey that is drawn")
}
