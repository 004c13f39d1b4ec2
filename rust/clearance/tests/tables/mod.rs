//! Surveys as the calls take them.

#![allow(dead_code)] // no test uses all of it

use surveys::Survey;

/// The tables of a survey for the proved library.
pub fn proved(Survey { cells, corners, amendments, .. }: &Survey) -> clearance::Survey<'_> {
    clearance::Survey { cells, corners, amendments }
}

/// The same for the independent drawing.
pub fn independent(Survey { cells, corners, amendments, .. }: &Survey) -> drawing::Survey<'_> {
    drawing::Survey { cells, corners, amendments }
}
