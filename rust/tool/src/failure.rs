//! What can go wrong, and the exit status that tells of it.

use std::fmt;
use std::path::{Path, PathBuf};

use clearance::Refusal;

/// Why a command did not do what was asked.
#[derive(Debug)]
pub enum Failure {
    /// The command line can't be read.
    Usage(String),
    /// A file can't be read or written.
    File {
        /// The file.
        path: PathBuf,
        /// What the system said.
        error: std::io::Error,
    },
    /// A file holds something else than it should.
    Unfit {
        /// The file.
        path: PathBuf,
        /// What is wrong with it.
        words: String,
    },
    /// The library refused the survey, the clearance, the calendar, the minute, the edge, the reference point, the convoy or the way.
    Refused {
        /// The refusal.
        refusal: Refusal,
        /// Its words, and what more there is to say of it.
        words: String,
    },
}

impl Failure {
    /// 1 for a refusal, 2 for the rest.
    pub fn exit_status(&self) -> u8 {
        match self {
            Failure::Refused { .. } => 1,
            Failure::Usage(_) | Failure::File { .. } | Failure::Unfit { .. } => 2,
        }
    }

    /// A refusal with the reason for it.
    pub fn refused_for(refusal: Refusal, reason: &str) -> Failure {
        Failure::Refused { refusal, words: format!("{refusal}: {reason}") }
    }

    /// What the system said of a file, for `map_err`.
    pub fn of_file(path: &Path) -> impl FnOnce(std::io::Error) -> Failure + '_ {
        move |error| Failure::File { path: path.to_path_buf(), error }
    }
}

impl From<Refusal> for Failure {
    fn from(refusal: Refusal) -> Failure {
        Failure::Refused { refusal, words: refusal.to_string() }
    }
}

impl fmt::Display for Failure {
    fn fmt(&self, out: &mut fmt::Formatter) -> fmt::Result {
        match self {
            Failure::Usage(words) => out.write_str(words),
            Failure::File { path, error } => write!(out, "{}: {error}", path.display()),
            Failure::Unfit { path, words } => write!(out, "{} {words}", path.display()),
            Failure::Refused { refusal, words } => write!(out, "refused {}: {words}", refusal.number()),
        }
    }
}

/// A refusal by its number and its words.
pub fn refused(refusal: Refusal) -> String {
    format!("refused {}: {refusal}", refusal.number())
}
