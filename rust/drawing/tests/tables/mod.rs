//! Surveys as the calls take them.

use surveys::Survey;

/// The tables of a survey.
pub fn tables(Survey { cells, corners, amendments, .. }: &Survey) -> drawing::Survey<'_> {
    drawing::Survey { cells, corners, amendments }
}
