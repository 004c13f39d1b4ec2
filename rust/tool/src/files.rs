//! A survey as the documents' four files of a directory: `cells`, `corners`, `amendments` and `clearance`. A calendar is a file of any name and anywhere; that
//! of an example is `calendar`, beside them.

use std::fs;
use std::io::{self, Write};
use std::path::{Path, PathBuf};

use surveys::Survey;

use crate::failure::Failure;

const CELLS: &str = "cells";
const CORNERS: &str = "corners";
const AMENDMENTS: &str = "amendments";
const CLEARANCE: &str = "clearance";
const CALENDAR: &str = "calendar";
const NAMES: [&str; 5] = [CELLS, CORNERS, AMENDMENTS, CLEARANCE, CALENDAR];

/// The tables of a survey as the library takes them.
pub fn tables(Survey { cells, corners, amendments, .. }: &Survey) -> clearance::Survey<'_> {
    clearance::Survey { cells, corners, amendments }
}

/// How the files of a survey are read.
#[derive(Clone, Copy)]
pub struct Reading {
    /// As the documents' drawing program reads them: a missing file counts as empty. Else it is a failure, since an empty table would be refused with words
    /// about the table when it is the directory that is wrong. Amendments need not be there: most surveys have none.
    pub as_program: bool,
    /// The clearance, if it does not come from its file. Then that file is not read and need not be there.
    pub clearance: Option<f32>,
}

impl Reading {
    /// The tables are read, and must be there. The clearance is not a number.
    pub const TABLES: Reading = Reading { as_program: false, clearance: Some(f32::NAN) };
}

/// Reads a survey.
pub fn read(directory: &Path, reading: Reading) -> Result<Survey, Failure> {
    let read = |name| {
        if reading.as_program {
            read_if_there(directory, name)
        } else {
            read_file(&directory.join(name))
        }
    };
    let [cells, corners] = [CELLS, CORNERS].map(read);
    let (cells, corners, amendments) = (cells?, corners?, read_if_there(directory, AMENDMENTS)?);
    let clearance = match reading.clearance {
        Some(clearance) => clearance,
        None => stored_clearance(&directory.join(CLEARANCE), &read(CLEARANCE)?, reading.as_program)?,
    };
    Ok(Survey { cells, corners, amendments, clearance })
}

/// The clearance in the bytes of its file. One of another length is refusal 8, in its order, as a clearance that is not a number is.
///
/// A file in which a number is written as text is a failure. The four bytes of `24.0` or `0.5\n` are a binary32 too, next to 0 (below 1/4,096), and a drawing
/// at that clearance would be wrong without a word. Text of another length is a failure too, but for `draw`, which refuses it by 8 as the documents' drawing
/// program does.
fn stored_clearance(path: &Path, bytes: &[u8], as_program: bool) -> Result<f32, Failure> {
    let stored = bytes.try_into().map(f32::from_le_bytes);
    match spelled(bytes) {
        Some(number) if stored.is_ok() || !as_program => {
            let words = format!(
                "holds the text {number}, and not a clearance as four bytes of binary32, little-endian; give it as --clearance {number}"
            );
            Err(Failure::Unfit { path: path.to_path_buf(), words })
        }
        _ => Ok(stored.unwrap_or(f32::NAN)),
    }
}

/// The number that bytes spell, if they are the text of one, with a point or a comma and perhaps space around it.
fn spelled(bytes: &[u8]) -> Option<String> {
    let number = std::str::from_utf8(bytes.trim_ascii()).ok()?.replace(',', ".");
    number.parse::<f32>().is_ok().then_some(number)
}

/// The files to be read that a directory lacks. It need not have amendments.
pub fn missing(directory: &Path, reading: Reading) -> Vec<PathBuf> {
    let names = [CELLS, CORNERS].into_iter().chain(reading.clearance.is_none().then_some(CLEARANCE));
    let is_missing =
        |path: &PathBuf| fs::metadata(path).is_err_and(|error| error.kind() == io::ErrorKind::NotFound);
    names.map(|name| directory.join(name)).filter(is_missing).collect()
}

/// Writes a survey, and a calendar unless it is empty, into a new directory if there is none. Never writes over a file, nor beside the amendments or the
/// calendar of another survey.
pub fn write(directory: &Path, survey: &Survey, calendar: &[u8]) -> Result<(), Failure> {
    fs::create_dir_all(directory).map_err(Failure::of_file(directory))?;
    if let Some(path) = NAMES.map(|name| directory.join(name)).iter().find(|path| path.exists()) {
        return Err(Failure::of_file(path)(io::ErrorKind::AlreadyExists.into()));
    }
    write_new(&directory.join(CELLS), &survey.cells)?;
    write_new(&directory.join(CORNERS), &survey.corners)?;
    write_new(&directory.join(CLEARANCE), &survey.clearance.to_le_bytes())?;
    for (name, table) in [(AMENDMENTS, &survey.amendments[..]), (CALENDAR, calendar)] {
        if !table.is_empty() {
            write_new(&directory.join(name), table)?;
        }
    }
    Ok(())
}

/// Writes a file that is not there yet.
pub fn write_new(path: &Path, bytes: &[u8]) -> Result<(), Failure> {
    let file = fs::OpenOptions::new().write(true).create_new(true).open(path);
    file.and_then(|mut file| file.write_all(bytes)).map_err(Failure::of_file(path))
}

/// Reads a file that must be there.
pub fn read_file(path: &Path) -> Result<Vec<u8>, Failure> {
    fs::read(path).map_err(Failure::of_file(path))
}

/// Reads a file; a missing one counts as empty.
fn read_if_there(directory: &Path, name: &str) -> Result<Vec<u8>, Failure> {
    match read_file(&directory.join(name)) {
        Err(Failure::File { error, .. }) if error.kind() == io::ErrorKind::NotFound => Ok(Vec::new()),
        read => read,
    }
}
