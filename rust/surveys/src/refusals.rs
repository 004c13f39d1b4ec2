//! Checks 1 to 8 in the words of document 01, "Outputs and refusals"; checks 12 to 21 in those of document 02, "Basins cut
//! off by the box", "Water in the pool", "Resounding a few corners", "Clearance by calendar", "Can she get through?" and "A
//! convoy on one way". Nothing here is fast.

use std::collections::BTreeSet;

use crate::calendars::{Period, YEAR_END};
use crate::joints::Joints;
use crate::plain::{entries, in_force, octree, periods, records};
use crate::survey::{on_outer_face, Record, DEEPEST};
use crate::Survey;

/// The checks of a survey and its clearance, in their order.
pub const ORDER: [u32; 10] = [1, 2, 3, 4, 5, 6, AMENDMENT_TABLE, AMENDMENT_PLACE, 7, 8];

/// The refusal for a wet corner on an outer face, given only where the surface is drawn.
pub const OPEN_AT_BOX: u32 = 12;

/// The refusal for a coordinate of the reference point, given by the volume alone.
pub const REFERENCE: u32 = 13;

/// The refusal for an amendment table that is not whole records or too long.
pub const AMENDMENT_TABLE: u32 = 14;

/// The refusal for an amendment at no cell's corner.
pub const AMENDMENT_PLACE: u32 = 15;

/// The refusal for a calendar that is not whole records or breaks a rule, given by a drawing by calendar alone.
pub const CALENDAR: u32 = 16;

/// The refusal for a minute in no record of the calendar, given by a drawing by calendar alone.
pub const MINUTE: u32 = 17;

/// The refusal for a start or an end that is no corner, given by a way alone, of one boat or of a convoy, as are the next two.
pub const WAY_END: u32 = 18;

/// The refusal for a way slice or a work slice that is shorter than the corner count.
pub const WAY_SLICE: u32 = 19;

/// The refusal where there is no way.
pub const NO_WAY: u32 = 20;

/// The refusal for a convoy of none or more than 16, which no other call gives.
pub const CONVOY: u32 = 21;

/// The first refusal of a drawing that the lent slices have no part in: those of [`ORDER`], then 12; 0 if there is none.
pub fn of_drawing(survey: &Survey) -> u32 {
    match first(survey) {
        0 if is_open_at_box(survey) => OPEN_AT_BOX,
        number => number,
    }
}

/// The first refusal of a volume that the lent slices have no part in: as of a drawing, then 13; 0 if there is none.
pub fn of_volume(survey: &Survey, reference: [u32; 3]) -> u32 {
    match of_drawing(survey) {
        0 if reference.iter().any(|&coordinate| coordinate > 1_024) => REFERENCE,
        number => number,
    }
}

/// The first refusal of a drawing by calendar that the lent slices have no part in: those of the survey by itself, then 16
/// and 17, then those of a drawing at the clearance in force; 0 if there is none. The survey's clearance is not looked at.
pub fn of_drawing_by_calendar(survey: &Survey, calendar: &[u8], minute: u32) -> u32 {
    match (by_itself(first(survey)), clearance_at(calendar, minute)) {
        (0, Ok(clearance)) => of_drawing(&survey.clone().at(clearance)),
        (0, Err(refusal)) => refusal,
        (refusal, _) => refusal,
    }
}

/// The refusal of a way: those of [`ORDER`], then 18, 19 and 20; 0 if there is none. The rooms are how many elements the way slice and the work slice
/// have.
pub fn of_way(survey: &Survey, ends: [u32; 2], rooms: [usize; 2]) -> u32 {
    of_convoy(survey, &[survey.clearance], ends, rooms)
}

/// The refusal of a convoy: those of [`of_boats`], then 18, 19 and 20; 0 if there is none.
pub fn of_convoy(survey: &Survey, clearances: &[f32], ends: [u32; 2], rooms: [usize; 2]) -> u32 {
    let [start, end] = ends.map(|end| end as u16);
    let is_reached = || Joints::read(survey).for_convoy(survey, clearances).reach(start).contains(&end);
    match of_question(of_boats(survey, clearances), records(&survey.corners).count(), ends, rooms) {
        0 if !is_reached() => NO_WAY,
        number => number,
    }
}

/// The first refusal of a survey and the boats of a convoy: those of the survey by itself, then 21, and 8 if any clearance is out of range; 0 if there is
/// none. The survey's own clearance is not looked at.
pub fn of_boats(survey: &Survey, clearances: &[f32]) -> u32 {
    match by_itself(first(survey)) {
        0 if clearances.is_empty() || clearances.len() > 16 => CONVOY,
        0 if clearances.iter().any(|&clearance| out_of_range(clearance)) => 8,
        number => number,
    }
}

/// The refusal of a way without 20, of a survey and boats with this first refusal and so many corners.
pub fn of_question(first: u32, corners: usize, ends: [u32; 2], rooms: [usize; 2]) -> u32 {
    match first {
        0 if ends.iter().any(|&end| end as usize >= corners) => WAY_END,
        0 if rooms.iter().any(|&room| room < corners) => WAY_SLICE,
        number => number,
    }
}

/// The clearance in force at a minute, lawful or not; or the first refusal of 16 and 17 that applies.
pub fn clearance_at(calendar: &[u8], minute: u32) -> Result<f32, u32> {
    if breaks_rule_of_calendars(calendar) {
        return Err(CALENDAR);
    }
    let holds = |period: &Period| period.from <= minute && minute < period.until;
    periods(calendar).find(holds).map(|period| period.clearance).ok_or(MINUTE)
}

/// The first of the checks in [`ORDER`] that refuses a survey; 0 if none does. An enquiry has no other before 11.
pub fn first(survey: &Survey) -> u32 {
    ORDER.into_iter().find(|&number| refuses(number, survey)).unwrap_or(0)
}

/// Whether a check refuses a survey that has passed those before it.
fn refuses(number: u32, survey: &Survey) -> bool {
    let Survey { cells, corners, amendments, clearance } = survey;
    match number {
        1 => cells.is_empty() || cells.len() % 4 != 0 || cells.len() > 8_196,
        2 => corners.is_empty() || corners.len() % Record::BYTES != 0 || corners.len() > 58_464,
        3 => breaks_entry_rule(&entries(cells).collect::<Vec<_>>()),
        4 => splits_too_deep(&entries(cells).collect::<Vec<_>>(), 0, 0),
        5 => falls_or_stays(survey),
        6 => other_corners(survey),
        AMENDMENT_TABLE => amendments.len() % Record::BYTES != 0 || amendments.len() > 12_000,
        AMENDMENT_PLACE => amends_no_corner(survey),
        7 => in_force(survey).iter().any(|held| out_of_range(held.record.sounding)),
        8 => out_of_range(*clearance),
        _ => panic!("no check of a survey has the number {number}"),
    }
}

/// What is left of the first refusal of a drawing for the survey by itself: 1 to 7, 14 and 15, else 0, since checks 8 and
/// 12 look at the clearance.
pub fn by_itself(refusal: u32) -> u32 {
    match refusal {
        8 | OPEN_AT_BOX => 0,
        _ => refusal,
    }
}

fn breaks_entry_rule(entries: &[usize]) -> bool {
    let splits_before = |record: usize| entries[..record].iter().filter(|&&entry| entry != 0).count();
    let breaks = |record: usize| {
        let entry = entries[record];
        entry != 0 && (entry != 1 + 8 * splits_before(record) || entry <= record)
    };
    entries.len() != 1 + 8 * splits_before(entries.len()) || (0..entries.len()).any(breaks)
}

fn splits_too_deep(entries: &[usize], record: usize, depth: u32) -> bool {
    match entries[record] {
        0 => false,
        _ if depth == DEEPEST => true,
        first => (first..first + 8).any(|child| splits_too_deep(entries, child, depth + 1)),
    }
}

fn falls_or_stays(survey: &Survey) -> bool {
    let reversed = |Record { place: [x, y, z], .. }| [z, y, x];
    let places: Vec<[u16; 3]> = records(&survey.corners).map(reversed).collect();
    places.windows(2).any(|pair| pair[0] >= pair[1])
}

/// Both sides come in the same order, since check 5 has passed.
fn other_corners(survey: &Survey) -> bool {
    let places: Vec<[u16; 3]> = records(&survey.corners).map(|record| record.place).collect();
    places != octree(&survey.cells).corner_places()
}

fn amends_no_corner(survey: &Survey) -> bool {
    let places = BTreeSet::from_iter(octree(&survey.cells).corner_places());
    records(&survey.amendments).any(|amendment| !places.contains(&amendment.place))
}

/// A survey with a wet corner on an outer face.
fn is_open_at_box(survey: &Survey) -> bool {
    let is_wet = |sounding: f32| sounding > survey.clearance;
    in_force(survey).iter().any(|held| on_outer_face(held.record.place) && is_wet(held.record.sounding))
}

fn breaks_rule_of_calendars(calendar: &[u8]) -> bool {
    let periods: Vec<Period> = periods(calendar).collect();
    let breaks = |number: usize| {
        let Period { from, until, .. } = periods[number];
        let begins_too_early = number > 0 && from < periods[number - 1].until;
        from >= until || until > YEAR_END || begins_too_early
    };
    !calendar.len().is_multiple_of(Period::BYTES) || (0..periods.len()).any(breaks)
}

/// Whether checks 7 and 8 refuse a sounding or a clearance in force.
pub fn out_of_range(number: f32) -> bool {
    !number.is_finite() || !(-1_048_576.0..=1_048_576.0).contains(&number)
}
