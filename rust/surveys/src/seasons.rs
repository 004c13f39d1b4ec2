//! Calendars asked at a minute, of which the clearance in force or the refusal can be said by hand, and so the drawing of one
//! survey: document 02, "Clearance by calendar".

use crate::calendars::{minute_by_minute, table, Period, YEAR_END};
use crate::document::{centre_wet, wet_at, FACE_CENTRES};
use crate::expected::{centre_points, centre_triangles};
use crate::refusals::{CALENDAR, MINUTE, OPEN_AT_BOX};
use crate::survey::Record;
use crate::Survey;

/// A calendar asked at a minute.
pub struct Known {
    /// What it shows. With the minute no other has this name.
    pub name: &'static str,
    /// The calendar.
    pub calendar: Vec<u8>,
    /// The minute.
    pub minute: u32,
    /// The clearance in force, lawful or not; or the refusal, 16 or 17.
    pub due: Result<f32, u32>,
}

/// x, y and z of each point, and the point numbers of each triangle.
pub type Drawing = (Vec<[f32; 3]>, Vec<[u32; 3]>);

impl Known {
    /// The drawing of [`survey`] by this calendar at this minute; or the refusal.
    pub fn drawing(&self) -> Result<Drawing, u32> {
        self.due.and_then(drawing_at)
    }
}

/// The survey to draw by these calendars: one split, 1 in the middle and −1 elsewhere.
pub fn survey() -> Survey {
    centre_wet()
}

/// At clearance 0 its points are in the middle of their edges, at 0.5 a quarter from the wet end, at −0.5 a quarter from the
/// dry end; at the greatest clearance nothing is wet, at the least all is.
fn drawing_at(clearance: f32) -> Result<Drawing, u32> {
    let around = |far| Ok((centre_points(far), centre_triangles()));
    match clearance {
        0.0 => around(256.0),
        0.5 => around(128.0),
        -0.5 => around(384.0),
        1_048_576.0 => Ok((vec![], vec![])),
        -1_048_576.0 => Err(OPEN_AT_BOX),
        _ => Err(8),
    }
}

/// A record as it is written here: from, until, clearance.
type Written = (u32, u32, f32);

/// Two records that touch, a gap, and another record.
const SEASONS: [Written; 3] = [(100, 200, 0.0), (200, 300, 0.5), (400, 500, -0.5)];

const DRAWN: Result<f32, u32> = Ok(0.5);
const BROKEN: Result<f32, u32> = Err(CALENDAR);
const IN_NONE: Result<f32, u32> = Err(MINUTE);

fn calendar(records: &[Written]) -> Vec<u8> {
    table(records.iter().map(|&(from, until, clearance)| Period { from, until, clearance }))
}

/// All of them.
pub fn known() -> Vec<Known> {
    let mut list = Vec::new();
    for (name, calendar, asked) in [seasons(), years(), clearances(), broken(), parts()].concat() {
        let known = |(minute, due)| Known { name, calendar: calendar.clone(), minute, due };
        list.extend(asked.into_iter().map(known));
    }
    list
}

/// A minute, and what is due at it.
type Due = (u32, Result<f32, u32>);

/// A name, a calendar, and minutes with what is due at them.
type Listed = (&'static str, Vec<u8>, Vec<Due>);

/// Minutes in and around two records that touch and one behind a gap.
fn seasons() -> Vec<Listed> {
    let [season, flood, stoppage] = SEASONS.map(|(.., clearance)| Ok(clearance));
    let beyond = [YEAR_END, YEAR_END + 150, u32::MAX].map(|minute| (minute, IN_NONE));
    let asked: [(&str, &[Due]); 7] = [
        ("ahead of all records", &[(0, IN_NONE), (99, IN_NONE)]),
        ("the first minute, the last, between", &[(100, season), (199, season), (150, season)]),
        ("one record ends and one begins", &[(200, flood), (299, flood)]),
        ("a gap", &[(300, IN_NONE), (350, IN_NONE), (399, IN_NONE)]),
        ("behind a gap", &[(400, stoppage), (499, stoppage)]),
        ("behind all records", &[(500, IN_NONE), (YEAR_END - 1, IN_NONE)]),
        ("beyond the year", &beyond),
    ];
    asked.map(|(name, asked)| (name, calendar(&SEASONS), asked.to_vec())).to_vec()
}

/// Calendars that take up the whole year, its first or last minute, or nothing of it.
fn years() -> Vec<Listed> {
    let year = || calendar(&[(0, YEAR_END, 0.5)]);
    let over = [YEAR_END, 1 << 20, 1 << 31].map(|minute| (minute, IN_NONE)).to_vec();
    let never = [0, 150, u32::MAX].map(|minute| (minute, IN_NONE)).to_vec();
    let first = calendar(&[(0, 1, 0.5)]);
    let last = calendar(&[(527_039, 527_040, 0.5)]);
    let far = calendar(&[(65_536, 65_792, 0.5)]);
    let every_minute = minute_by_minute(YEAR_END, |minute| minute as f32 / 2.0);
    vec![
        ("the whole year", year(), vec![(0, DRAWN), (YEAR_END - 1, DRAWN)]),
        ("the whole year is over", year(), over),
        ("the year's first minute", first, vec![(0, DRAWN), (1, IN_NONE)]),
        ("the year's last minute", last, vec![(527_038, IN_NONE), (527_039, DRAWN)]),
        ("numbers of several bytes", far, vec![(65_536, DRAWN), (1, IN_NONE), (256, IN_NONE)]),
        ("empty", vec![], never),
        ("every minute", every_minute, vec![(0, Ok(0.0)), (1, DRAWN)]),
    ]
}

/// Only the clearance in force is looked at.
fn clearances() -> Vec<Listed> {
    let others = |clearance| calendar(&[(0, 100, clearance), (100, 200, 0.5), (200, 300, clearance)]);
    let numbers =
        [f32::NAN, f32::INFINITY, -f32::INFINITY, 1_048_577.0, -1_048_577.0, 1_048_576.0, -1_048_576.0];
    let asked =
        |number| vec![(0, Ok(number)), (99, Ok(number)), (100, DRAWN), (199, DRAWN), (200, Ok(number))];
    let names = ["NaN", "infinity", "-infinity", "above", "below", "the greatest", "the least"];
    names.into_iter().zip(numbers).map(|(name, number)| (name, others(number), asked(number))).collect()
}

/// Every minute is refused: also before the record that breaks a rule, behind it, and in no record.
fn broken() -> Vec<Listed> {
    let before = (100, 200, 0.5);
    let behind = (500, 600, 0.5);
    let records: [(&'static str, &[Written]); 20] = [
        ("overlap by a minute", &[before, (199, 300, 0.5)]),
        ("overlap by a minute, behind two", &[before, (300, 400, 0.5), (399, 450, 0.5)]),
        ("the same record twice", &[before, before]),
        ("one inside another", &[before, (120, 130, 0.5), behind]),
        ("one around another", &[before, (50, 400, 0.5), behind]),
        ("records in the wrong order", &[behind, before]),
        ("the last begins before all have ended", &[before, behind, (0, 50, 0.5)]),
        ("from equal to until", &[before, (300, 300, 0.5), behind]),
        ("from equal to until alone", &[(150, 150, 0.5)]),
        ("from equal to until at 0", &[(0, 0, 0.5), before]),
        ("from equal to until at the end", &[before, (YEAR_END, YEAR_END, 0.5)]),
        ("from equal to until where records touch", &[before, (200, 200, 0.5), (200, 300, 0.5)]),
        ("from above until", &[before, (301, 300, 0.5), behind]),
        ("a huge from", &[before, (u32::MAX, 300, 0.5), behind]),
        ("a from that would be negative", &[before, (1 << 31, 300, 0.5), behind]),
        ("until 527,041", &[before, behind, (1_000, 527_041, 0.5)]),
        ("until 527,041 alone", &[(0, 527_041, 0.5)]),
        ("both beyond the year", &[before, (527_040, 527_041, 0.5)]),
        ("an until that would be negative", &[before, (500, 1 << 31, 0.5)]),
        ("the greatest until", &[before, (500, u32::MAX, f32::NAN)]),
    ];
    let minutes = [0, 100, 150, 199, 200, 300, 320, 399, 550, 1_000, 527_040, u32::MAX];
    let asked = minutes.map(|minute| (minute, BROKEN)).to_vec();
    records.into_iter().map(|(name, records)| (name, calendar(records), asked.clone())).collect()
}

/// Calendars that are not whole records, where a record is in force at 150 and none at 50.
fn parts() -> Vec<Listed> {
    let of_bytes = |bytes: usize| calendar(&SEASONS)[..bytes].to_vec();
    let part =
        |name, bytes| (name, of_bytes(bytes), [0, 50, 150, 250, 450].map(|minute| (minute, BROKEN)).to_vec());
    vec![
        part("one byte", 1),
        part("eleven bytes", 11),
        part("a record and a byte", 13),
        part("two records but for a byte", 23),
        part("two records and the numbers of a third", 32),
        part("three records but for a byte", 35),
    ]
}

/// A survey drawn by a calendar into slices of these lengths, to see which check refuses it where several would.
pub struct Several {
    /// The survey.
    pub survey: Survey,
    /// The calendar.
    pub calendar: Vec<u8>,
    /// The minute.
    pub minute: u32,
    /// How many elements the point and the triangle slice have.
    pub room: [usize; 2],
    /// The refusal that is given, or 0.
    pub refusal: u32,
}

impl Several {
    /// The counts of points and triangles that come with it: there is a drawing only where nothing but a slice refuses it.
    pub fn counts(&self) -> [u32; 2] {
        match self.refusal {
            0 | 9 | 10 => [6, 8],
            _ => [0, 0],
        }
    }
}

/// Each refusal in its order, 14, 15, 7, 16, 17, 8, 12, 9, 10: in most cases checks that stand after it would refuse too, in
/// some it is the only one. The last case is drawn.
pub fn several() -> Vec<Several> {
    let outside = |sounding| wet_at(&[0], &[[512; 3], FACE_CENTRES[0]], sounding);
    let unsounded = || outside(f32::NAN);
    let stray = || unsounded().amended([Record { place: [1; 3], sounding: f32::NAN, day: 0 }]);
    let part_of_amendment = || Survey { amendments: vec![0; 11], ..unsounded() };
    let lawful = || calendar(&[(100, 200, 0.0)]);
    let no_number = || calendar(&[(100, 200, f32::NAN)]);
    let overlap = || calendar(&[(100, 200, f32::NAN), (199, 300, f32::NAN)]);
    let part = || no_number()[..11].to_vec();
    let case = |refusal, survey, calendar, minute, room| Several { survey, calendar, minute, room, refusal };
    vec![
        case(14, part_of_amendment(), overlap(), 0, [0, 0]),
        case(15, stray(), overlap(), 0, [0, 0]),
        case(7, unsounded(), overlap(), 0, [0, 0]),
        case(7, unsounded(), part(), 100, [0, 0]),
        case(7, unsounded(), vec![], 0, [0, 0]),
        case(7, unsounded(), no_number(), 150, [0, 0]),
        case(CALENDAR, outside(1.0), overlap(), 0, [0, 0]),
        case(CALENDAR, outside(1.0), overlap(), 150, [0, 0]),
        case(CALENDAR, centre_wet(), part(), 150, [18, 24]),
        case(MINUTE, outside(1.0), no_number(), 200, [0, 0]),
        case(MINUTE, centre_wet(), vec![], 0, [18, 24]),
        case(8, outside(1.0), no_number(), 199, [0, 0]),
        case(8, centre_wet(), no_number(), 100, [18, 24]),
        case(OPEN_AT_BOX, outside(1.0), lawful(), 100, [0, 0]),
        case(9, centre_wet(), lawful(), 100, [17, 23]),
        case(10, centre_wet(), lawful(), 199, [18, 23]),
        case(0, centre_wet(), lawful(), 199, [18, 24]),
    ]
}

#[cfg(test)]
mod tests {
    use super::*;
    use crate::refusals::{clearance_at, of_drawing_by_calendar};
    use std::collections::BTreeSet;

    #[test]
    fn the_plain_checks_say_the_same() {
        let mut met = BTreeSet::new();
        for known in known() {
            let Known { name, calendar, minute, due } = &known;
            let bits = |due: Result<f32, u32>| due.map(f32::to_bits);
            assert_eq!(bits(clearance_at(calendar, *minute)), bits(*due), "{name}, minute {minute}");
            let refusal = known.drawing().map_or_else(|refusal| refusal, |_| 0);
            assert_eq!(
                of_drawing_by_calendar(&survey(), calendar, *minute),
                refusal,
                "{name}, minute {minute}"
            );
            assert!(met.insert((*name, *minute)), "{name}, minute {minute} is there twice");
        }
        assert!(met.len() > 300, "{} of them", met.len());
    }

    #[test]
    fn of_several_refusals_the_plain_checks_give_the_same() {
        for Several { survey, calendar, minute, refusal, .. } in several() {
            let before_slices = if refusal == 9 || refusal == 10 { 0 } else { refusal };
            assert_eq!(
                of_drawing_by_calendar(&survey, &calendar, minute),
                before_slices,
                "refusal {refusal}"
            );
        }
    }
}
