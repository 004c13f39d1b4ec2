//! Surveys with amendments, of which the drawing or the refusal can be said by hand: document 02, "Resounding a few
//! corners". Most are one split in which all corners but the centre are −1.

use crate::amendments::MOST;
use crate::document::{centre_sounded, centre_wet, twin, wet_at, Checked, Drawn, FACE_CENTRES};
use crate::expected::{centre_points, centre_triangles, quarter_points, twin_triangles};
use crate::plain::records;
use crate::refusals::{AMENDMENT_PLACE, AMENDMENT_TABLE, OPEN_AT_BOX};
use crate::survey::{table, Record};
use crate::Survey;

/// The centre of the box.
const CENTRE: [u16; 3] = [512; 3];

/// A sounding and its day.
type Sounded = (f32, u16);

fn record(place: [u16; 3], (sounding, day): Sounded) -> Record {
    Record { place, sounding, day }
}

/// One split with the centre sounded so in the corner table, and so by its amendments. The corner table is of one day.
fn centre(own: Sounded, amendments: &[Sounded]) -> Survey {
    let (sounding, day) = own;
    let amendments = amendments.iter().map(|&amendment| record(CENTRE, amendment));
    of_day(centre_sounded(sounding), day).amended(amendments)
}

/// The survey with its corner table of one day.
fn of_day(survey: Survey, day: u16) -> Survey {
    let corners = table(records(&survey.corners).map(|corner| Record { day, ..corner }));
    Survey { corners, ..survey }
}

/// Only the centre wet, and an amendment that dries it.
pub fn dried() -> Survey {
    centre((1.0, 0), &[(-1.0, 1)])
}

/// Only the centre wet, and amendments that deepen it from 1 to 3: its points are 384 away, and not 256.
pub fn deepened() -> Survey {
    centre((1.0, 0), &[(-1.0, 5), (3.0, 5)])
}

/// The twin survey of day 100 with its wet corner deepened to 3 on day 131. That of the day before and an amendment that
/// would wet another corner are too old to hold.
pub fn deepened_twin() -> Survey {
    let wet = [256, 512, 512];
    let amendments = [record(wet, (3.0, 131)), record(wet, (2.0, 130)), record([512, 256, 512], (1.0, 99))];
    of_day(twin(), 100).amended(amendments)
}

/// The surveys that are drawn.
pub(crate) fn drawn() -> Vec<Drawn> {
    let mut list: Vec<Drawn> =
        centres().into_iter().map(|(name, survey, far)| around(name, survey, far)).collect();
    let wet_outside = wet_at(&[0], &[CENTRE, FACE_CENTRES[0]], 1.0);
    let dried_outside = wet_outside.amended([record(FACE_CENTRES[0], (-1.0, 0))]);
    let raised = FACE_CENTRES.into_iter().rev().map(|place| record(place, (0.0, 1)));
    list.extend([
        around("an outer face is dried by an amendment", dried_outside, Some(256.0)),
        around("six corners amended, from the last to the first", centre_wet().amended(raised), Some(512.0)),
        Drawn::new("the twin survey deepened", deepened_twin(), quarter_points(), twin_triangles()),
    ]);
    list
}

/// The drawing of one split with only the centre wet and points so far from it, or with no corner wet.
fn around(name: &str, survey: Survey, far: Option<f32>) -> Drawn {
    match far {
        Some(far) => Drawn::new(name, survey, centre_points(far), centre_triangles()),
        None => Drawn::new(name, survey, vec![], vec![]),
    }
}

/// Surveys in which the centre alone is amended, with how far from it the points are. Where 1 is in force that is 256,
/// where 3 is in force 384, and where it is dry there are none.
fn centres() -> Vec<(&'static str, Survey, Option<f32>)> {
    let (dry, one, three) = (None, Some(256.0), Some(384.0));
    let many = |sounded: fn(usize) -> Sounded| centre((1.0, 0), &Vec::from_iter((0..MOST).map(sounded)));
    vec![
        ("dried", dried(), dry),
        ("wetted", centre((-1.0, 0), &[(3.0, 1)]), three),
        ("an amendment that is too old", centre((1.0, 2), &[(3.0, 1)]), one),
        ("one of the corner table's own day", centre((1.0, 7), &[(3.0, 7)]), three),
        ("one of the last day, which is the corner table's", centre((1.0, 65_535), &[(3.0, 65_535)]), three),
        ("two of one day: the later", deepened(), three),
        ("two of the corner table's own day: the later", centre((1.0, 5), &[(-1.0, 5), (3.0, 5)]), three),
        ("the higher day first", centre((1.0, 0), &[(3.0, 6), (-1.0, 5)]), three),
        ("the higher day last", centre((1.0, 0), &[(-1.0, 5), (3.0, 6)]), three),
        ("the highest day between", centre((1.0, 0), &[(-1.0, 5), (3.0, 6), (-1.0, 4)]), three),
        (
            "the highest day twice, then an older: the second",
            centre((1.0, 1), &[(-1.0, 6), (3.0, 6), (-1.0, 5)]),
            three,
        ),
        ("a day that is higher in its high byte", centre((1.0, 0), &[(3.0, 256), (-1.0, 255)]), three),
        ("a day that would be negative", centre((1.0, 0), &[(3.0, 32_768), (-1.0, 32_767)]), three),
        ("not a number, put right", centre((f32::NAN, 0), &[(3.0, 1)]), three),
        ("not a number, put right on its day", centre((f32::NAN, 4), &[(f32::INFINITY, 4), (3.0, 4)]), three),
        ("not a number, and too old", centre((1.0, 2), &[(f32::NAN, 1)]), one),
        ("out of range, and older than another", centre((1.0, 0), &[(3.0, 2), (2e6, 1)]), three),
        ("1,000 of one day: the last", many(|n| (if n == MOST - 1 { 3.0 } else { -1.0 }, 1)), three),
        (
            "1,000 of falling days: the first",
            many(|n| (if n == 0 { 3.0 } else { -1.0 }, (MOST - n) as u16)),
            three,
        ),
    ]
}

/// The surveys that checks decide.
pub(crate) fn checked() -> Vec<Checked> {
    let mut list = vec![
        Checked::new("12,000 bytes of amendments", with_bytes(centre_wet(), 12_000), 0),
        Checked::new(
            "an outer face is wetted",
            centre_wet().amended([record([0; 3], (1.0, 0))]),
            OPEN_AT_BOX,
        ),
    ];
    for bytes in [1, 10, 11, 13, 11_999, 12_001, 12_012, 24_000] {
        let name = format!("{bytes} bytes of amendments");
        list.push(Checked::new(&name, with_bytes(centre_wet(), bytes), AMENDMENT_TABLE));
    }
    for place in [[1, 1, 1], [256, 0, 0], [1_025, 0, 0], [512, 1_536, 512], [0, 0, 65_535]] {
        let name = format!("an amendment at {place:?}");
        list.push(Checked::new(&name, centre_wet().amended([record(place, (-1.0, 1))]), AMENDMENT_PLACE));
    }
    list.extend(unsounded());
    list.extend(several());
    list
}

/// The survey with so many bytes of amendments. All are 0: each whole record is for the corner (0, 0, 0), which stays dry.
fn with_bytes(survey: Survey, bytes: usize) -> Survey {
    Survey { amendments: vec![0; bytes], ..survey }
}

/// Surveys in which a sounding in force is not lawful.
fn unsounded() -> [Checked; 4] {
    let nan = f32::NAN;
    [
        ("not a number, by an amendment", centre((1.0, 0), &[(nan, 1)])),
        ("beyond the range, by the later of one day", centre((1.0, 0), &[(3.0, 1), (-1_048_577.0, 1)])),
        ("infinite, by an amendment of the corner table's day", centre((1.0, 3), &[(f32::INFINITY, 3)])),
        ("not a number, and an amendment that is too old", centre((nan, 3), &[(3.0, 2)])),
    ]
    .map(|(name, survey)| Checked::new(name, survey, 7))
}

/// Surveys that several checks refuse: the first in order decides.
fn several() -> Vec<Checked> {
    let stray = |survey: Survey| survey.amended([record([1; 3], (f32::NAN, 0))]);
    let part = |survey: Survey| with_bytes(survey, 1);
    let stray_and_part = |survey: Survey| {
        let mut survey = stray(survey);
        survey.amendments.push(0);
        survey
    };
    let shortened = |bytes: usize| {
        let mut survey = centre_wet();
        survey.corners.truncate(survey.corners.len() - bytes);
        survey
    };
    let unsounded = || centre_sounded(f32::NAN);
    let put_right = || centre((f32::NAN, 0), &[(3.0, 1)]);
    let both = |mut survey: Survey, stray: Survey| {
        survey.amendments.extend(stray.amendments);
        survey
    };
    let checked = Checked::new;
    vec![
        checked("a part of a record in both tables", part(shortened(1)), 2),
        checked("a corner is missing, and a part of an amendment", part(shortened(Record::BYTES)), 6),
        checked("a corner is missing, and an amendment is at none", stray(shortened(Record::BYTES)), 6),
        checked("at no corner, and a part of an amendment", stray_and_part(centre_wet()), AMENDMENT_TABLE),
        checked("not a number, and a part of an amendment", part(unsounded()), AMENDMENT_TABLE),
        checked("no clearance, and a part of an amendment", part(centre_wet().at(f32::NAN)), AMENDMENT_TABLE),
        checked("not a number, and an amendment at no corner", stray(unsounded()), AMENDMENT_PLACE),
        checked(
            "no clearance, and an amendment at no corner",
            stray(centre_wet().at(f32::NAN)),
            AMENDMENT_PLACE,
        ),
        checked("at no corner, and too old to hold", stray(of_day(centre_wet(), 1)), AMENDMENT_PLACE),
        checked(
            "at no corner, behind one at a corner",
            both(put_right(), stray(centre_wet())),
            AMENDMENT_PLACE,
        ),
        checked(
            "not a number by an amendment, and no clearance",
            centre((1.0, 0), &[(f32::NAN, 1)]).at(f32::NAN),
            7,
        ),
        checked("not a number put right, and no clearance", put_right().at(f32::NAN), 8),
    ]
}
