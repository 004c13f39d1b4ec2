//! The two makers of the documents' calls, with answers that can be compared.

use clearance::{Refusal, Refused, Water};
use surveys::calendars::Asked;
use surveys::Survey;

use crate::subject::Enquiry;

/// The point from which volumes are reckoned.
const REFERENCE: [u32; 3] = [512; 3];

/// The lowest clearance that is lawful.
const LOWEST: f32 = -1_048_576.0;

/// The clearances of as many boats as a convoy may have, rising from the lowest that is lawful. Every corner is sounded above all of them, so that a way
/// leads anywhere.
const BOATS: [f32; 16] = {
    let mut boats = [LOWEST; 16];
    let mut boat = 1;
    while boat < boats.len() {
        boats[boat] = boats[boat - 1] + 1.0;
        boat += 1;
    }
    boats
};

/// The clearance of one boat: the greatest of the convoy, so that both are shown the same way.
const GREATEST: f32 = BOATS[BOATS.len() - 1];

/// What drawing returns: the number, and the counts of points and triangles.
pub type Counts = [u32; 3];

/// What a call that shows a way returns: the number, and the count of corners.
pub type Shown = [u32; 2];

/// The answer of an enquiry: a refusal's number, or the point of an odd edge and whether its upper end is wet.
pub type Answer = Result<Option<(u32, [f32; 3], bool)>, u32>;

/// A maker of the documents' calls.
pub trait Maker {
    /// Checks a survey.
    fn check(survey: &Survey) -> u32;
    /// Enquires about an edge.
    fn enquire(survey: &Survey, enquiry: Enquiry) -> Answer;
    /// Draws into lent slices.
    fn draw(survey: &Survey, points: &mut [f32], triangles: &mut [u32]) -> Counts;
    /// Draws into lent slices by a calendar.
    fn draw_by_calendar(survey: &Survey, asked: &Asked, points: &mut [f32], triangles: &mut [u32]) -> Counts;
    /// Draws into lent slices, and reckons six times the volume.
    fn volume(survey: &Survey, points: &mut [f32], triangles: &mut [u32]) -> (Counts, i128);
    /// Shows in lent slices, which have an element for each corner, the way from the first corner to the last for one boat.
    fn way(survey: &Survey, way: &mut [u16], work: &mut [u16]) -> Shown;
    /// Shows the same for a convoy of which she has the greatest clearance.
    fn convoy(survey: &Survey, way: &mut [u16], work: &mut [u16]) -> Shown;
}

/// The proved library.
pub struct Proved;

impl Maker for Proved {
    fn check(survey: &Survey) -> u32 {
        clearance::check(proved(survey)).map_or_else(Refusal::number, |()| 0)
    }

    fn enquire(survey: &Survey, Enquiry { axis, low, length }: Enquiry) -> Answer {
        match clearance::enquire(proved(survey), survey.clearance, axis, low, length) {
            Ok(clearance::Edge::Even) => Ok(None),
            Ok(clearance::Edge::Crossing { number, place, wet_end }) => {
                Ok(Some((number, place, wet_end == clearance::End::Upper)))
            }
            Err(refusal) => Err(refusal.number()),
        }
    }

    fn draw(survey: &Survey, points: &mut [f32], triangles: &mut [u32]) -> Counts {
        drawn(clearance::draw(proved(survey), survey.clearance, points, triangles))
    }

    fn draw_by_calendar(survey: &Survey, asked: &Asked, points: &mut [f32], triangles: &mut [u32]) -> Counts {
        let Asked { calendar, minute, .. } = asked;
        drawn(clearance::draw_by_calendar(proved(survey), calendar, *minute, points, triangles))
    }

    fn volume(survey: &Survey, points: &mut [f32], triangles: &mut [u32]) -> (Counts, i128) {
        match clearance::volume(proved(survey), survey.clearance, REFERENCE, points, triangles) {
            Ok(Water { counts, sixfold }) => ([0, counts.points, counts.triangles], sixfold.into()),
            Err(refused) => (refused_counts(refused), 0),
        }
    }

    fn way(survey: &Survey, way: &mut [u16], work: &mut [u16]) -> Shown {
        shown(clearance::way(proved(survey), GREATEST, 0, last_corner(work), way, work))
    }

    fn convoy(survey: &Survey, way: &mut [u16], work: &mut [u16]) -> Shown {
        shown(clearance::convoy(proved(survey), &BOATS, 0, last_corner(work), way, work))
    }
}

fn shown(outcome: Result<Option<usize>, Refusal>) -> Shown {
    match outcome {
        Ok(Some(corners)) => [0, corners as u32],
        Ok(None) => [Refusal::NoWay.number(), 0],
        Err(refusal) => [refusal.number(), 0],
    }
}

/// The record number of the last corner.
fn last_corner(work: &[u16]) -> u32 {
    work.len() as u32 - 1
}

/// The tables of a survey for the proved library.
fn proved(Survey { cells, corners, amendments, .. }: &Survey) -> clearance::Survey<'_> {
    clearance::Survey { cells, corners, amendments }
}

fn drawn(outcome: Result<clearance::Counts, Refused>) -> Counts {
    outcome.map_or_else(refused_counts, |counts| [0, counts.points, counts.triangles])
}

fn refused_counts(Refused { refusal, counts }: Refused) -> Counts {
    [refusal.number(), counts.points, counts.triangles]
}

/// The Rust drawing.
pub struct Rust;

impl Maker for Rust {
    fn check(survey: &Survey) -> u32 {
        drawing::check(rust(survey))
    }

    fn enquire(survey: &Survey, Enquiry { axis, low, length }: Enquiry) -> Answer {
        match drawing::enquire(rust(survey), survey.clearance, axis, low, length)? {
            drawing::Edge::Even => Ok(None),
            drawing::Edge::Crossing { number, place, wet_end } => {
                Ok(Some((number, place, wet_end == drawing::End::Upper)))
            }
        }
    }

    fn draw(survey: &Survey, points: &mut [f32], triangles: &mut [u32]) -> Counts {
        drawn_counts(drawing::draw(rust(survey), survey.clearance, points, triangles))
    }

    fn draw_by_calendar(survey: &Survey, asked: &Asked, points: &mut [f32], triangles: &mut [u32]) -> Counts {
        let Asked { calendar, minute, .. } = asked;
        drawn_counts(drawing::draw_by_calendar(rust(survey), calendar, *minute, points, triangles))
    }

    fn volume(survey: &Survey, points: &mut [f32], triangles: &mut [u32]) -> (Counts, i128) {
        let water = drawing::volume(rust(survey), survey.clearance, REFERENCE, points, triangles);
        (drawn_counts(water.drawn), water.sixfold)
    }

    fn way(survey: &Survey, way: &mut [u16], work: &mut [u16]) -> Shown {
        let passage = drawing::way(rust(survey), GREATEST, 0, last_corner(work), way, work);
        [passage.number, passage.corners]
    }

    fn convoy(survey: &Survey, way: &mut [u16], work: &mut [u16]) -> Shown {
        let passage = drawing::convoy(rust(survey), &BOATS, 0, last_corner(work), way, work);
        [passage.number, passage.corners]
    }
}

/// The tables of a survey for the Rust drawing.
pub fn rust(Survey { cells, corners, amendments, .. }: &Survey) -> drawing::Survey<'_> {
    drawing::Survey { cells, corners, amendments }
}

fn drawn_counts(drawing::Drawn { number, points, triangles }: drawing::Drawn) -> Counts {
    [number, points, triangles]
}
