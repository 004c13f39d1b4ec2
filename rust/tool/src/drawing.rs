//! What a command draws: the survey of a directory, at its clearance, at one given by hand or by a calendar.

use std::ffi::OsString;
use std::path::{Path, PathBuf};

use clap::{Arg, ArgMatches};
use clearance::{Mesh, Refusal};
use surveys::Survey;

use crate::arguments::{count, decimal, decimals, file, path, taken};
use crate::failure::Failure;
use crate::files::{self, Reading};

/// Names of arguments.
pub const DIRECTORY: &str = "DIR";
/// The minute to draw for, or to ask a calendar at.
pub const MINUTE: &str = "minute";
const CALENDAR: &str = "calendar";
const CLEARANCE: &str = "clearance";

/// The directory that a command was given.
pub fn directory(arguments: &ArgMatches) -> &Path {
    Path::new(taken::<OsString>(arguments, DIRECTORY))
}

/// What a command takes that needs a clearance: a directory, and a clearance or none.
pub fn directory_and_clearance() -> Vec<Arg> {
    vec![path(DIRECTORY), decimal(CLEARANCE)]
}

/// What a command takes that needs the clearances of one or more boats: a directory, and any number of clearances.
pub fn directory_and_clearances() -> Vec<Arg> {
    vec![path(DIRECTORY), decimals(CLEARANCE)]
}

/// What a command takes that draws: a directory, and a clearance, or a calendar with a minute, or neither.
pub fn directory_and_calendar() -> Vec<Arg> {
    vec![
        path(DIRECTORY),
        decimal(CLEARANCE).conflicts_with_all([CALENDAR, MINUTE]),
        file(CALENDAR).requires(MINUTE),
        count(MINUTE).requires(CALENDAR),
    ]
}

/// The clearance on the command line, if there is one; of several the first.
fn by_hand(arguments: &ArgMatches) -> Option<f32> {
    arguments.get_one(CLEARANCE).copied()
}

/// Reads the survey that a command was given that takes a clearance but no calendar. A missing file is a failure, but for amendments.
pub fn survey(arguments: &ArgMatches) -> Result<Survey, Failure> {
    files::read(directory(arguments), Reading { as_program: false, clearance: by_hand(arguments) })
}

/// Reads the survey as [`survey`] does, and the clearances of the boats: those on the command line, in their order, or else the one in its file.
pub fn survey_and_clearances(arguments: &ArgMatches) -> Result<(Survey, Vec<f32>), Failure> {
    let survey = survey(arguments)?;
    let given = arguments.get_many(CLEARANCE);
    let clearances = given.map_or_else(|| vec![survey.clearance], |given| given.copied().collect());
    Ok((survey, clearances))
}

/// A survey, and what says at which clearance it is drawn.
pub struct Subject {
    /// The survey. Where there is a calendar, its clearance is not a number.
    pub survey: Survey,
    /// A calendar and a minute.
    dated: Option<(Vec<u8>, u32)>,
}

impl Subject {
    /// Reads what a command was given. A missing file is a failure, but for amendments; the file of the clearance is not read where there is a calendar or a
    /// clearance by hand.
    pub fn read(arguments: &ArgMatches) -> Result<Subject, Failure> {
        Subject::read_with(arguments, false).map(|(subject, _)| subject)
    }

    /// Reads what a command was given. A missing file of the directory counts as empty, as it does for the documents' drawing program; gives back those too.
    pub fn read_as_program(arguments: &ArgMatches) -> Result<(Subject, Vec<PathBuf>), Failure> {
        Subject::read_with(arguments, true)
    }

    fn read_with(arguments: &ArgMatches, as_program: bool) -> Result<(Subject, Vec<PathBuf>), Failure> {
        let dated = match arguments.get_one::<OsString>(CALENDAR) {
            Some(calendar) => Some((files::read_file(Path::new(calendar))?, *taken(arguments, MINUTE))),
            None => None,
        };
        let clearance = if dated.is_some() { Some(f32::NAN) } else { by_hand(arguments) };
        let reading = Reading { as_program, clearance };
        let survey = files::read(directory(arguments), reading)?;
        Ok((Subject { survey, dated }, files::missing(directory(arguments), reading)))
    }

    /// Draws it.
    pub fn drawn(&self) -> Result<Mesh, Refusal> {
        let tables = files::tables(&self.survey);
        match &self.dated {
            Some((calendar, minute)) => clearance::draw_by_calendar_to_vec(tables, calendar, *minute),
            None => clearance::draw_to_vec(tables, self.survey.clearance),
        }
    }
}
