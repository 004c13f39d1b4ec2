//! Random days and amendments: document 02, "Resounding a few corners". The soundings in force stay those of the survey
//! handed in, so that whatever was known of it is known of the survey so amended; every other record may hold anything.

use crate::plain::{in_force, records};
use crate::random::Random;
use crate::soundings::overruled;
use crate::survey::{table, Record};
use crate::Survey;

/// The most amendments that a table may have.
pub const MOST: usize = 1_000;

/// Days that differ in one byte or the other, in both, or in the highest bit alone.
const DAYS: [u16; 8] = [0, 1, 255, 256, 257, 32_767, 32_768, 65_535];

/// Gives a survey without amendments days, and to every second one amendments: to most of these about a dozen, to some many,
/// to a few as many as may be. They are all at one corner, at a few in a row, or anywhere.
pub(crate) fn resounded(random: &mut Random, survey: &Survey) -> Survey {
    let count = match random.below(16) {
        0..8 => 0,
        8..13 => 1 + random.below(24),
        13 | 14 => 1 + random.below(MOST),
        _ => MOST,
    };
    let corners = survey.corners.len() / Record::BYTES;
    let (first, reach) = (random.below(corners), random.pick(&[1, 4, 16, corners]));
    amended_at(random, survey, count, |random| (first + random.below(reach)) % corners)
}

/// Gives a survey without amendments days, and so many amendments, at most [`MOST`], anywhere.
pub fn with_amendments(random: &mut Random, survey: &Survey, count: usize) -> Survey {
    let corners = survey.corners.len() / Record::BYTES;
    amended_at(random, survey, count, |random| random.below(corners))
}

/// Each amendment is at the corner that `corner` gives. One that comes into force takes the sounding of the record that was
/// in force, which is left with another.
fn amended_at(
    random: &mut Random,
    survey: &Survey,
    count: usize,
    corner: impl Fn(&mut Random) -> usize,
) -> Survey {
    let [table_days, amendment_days] = random_days(random);
    let dated = |record| Record { day: random.pick(&table_days), ..record };
    let mut corners: Vec<Record> = records(&survey.corners).map(dated).collect();
    let mut amendments: Vec<Record> = Vec::new();
    let mut holding: Vec<Option<usize>> = vec![None; corners.len()];
    for number in 0..count {
        let corner = corner(random);
        let (place, day) = (corners[corner].place, random.pick(&amendment_days));
        let mut sounding = overruled(random, survey.clearance);
        let held = holding[corner].map_or(&mut corners[corner], |holder| &mut amendments[holder]);
        if day >= held.day {
            std::mem::swap(&mut sounding, &mut held.sounding);
            holding[corner] = Some(number);
        }
        amendments.push(Record { place, sounding, day });
    }
    Survey { corners: table(corners), ..survey.clone() }.amended(amendments)
}

/// The days that a corner table and its amendments have: one day for all, amendments after the corner table, few days for
/// both, or some for each.
fn random_days(random: &mut Random) -> [Vec<u16>; 2] {
    let kind = random.below(4);
    let day = || if random.one_in(3) { random.bits() as u16 } else { random.pick(&DAYS) };
    let days: Vec<u16> = std::iter::repeat_with(day).take(6).collect();
    match kind {
        0 => [days[..1].to_vec(), days[..1].to_vec()],
        1 => [vec![0], days],
        2 => [days[..3].to_vec(), days[..3].to_vec()],
        _ => [days[..3].to_vec(), days[3..].to_vec()],
    }
}

/// Whether some amendment holds.
pub fn some_hold(survey: &Survey) -> bool {
    in_force(survey).iter().any(|held| held.amendment.is_some())
}

/// Surveys with the same soundings in force as this one, each with what it shows: every answer about them is the same. No
/// amendment may be at no cell's corner.
pub fn alike(survey: &Survey) -> [(&'static str, Survey); 4] {
    let with_corners = |day: u16| {
        let corners = in_force(survey).into_iter().map(|held| Record { day, ..held.record });
        Survey { corners: table(corners), amendments: Vec::new(), ..survey.clone() }
    };
    let older = records(&survey.amendments).map(|record| Record { day: record.day.min(65_534), ..record });
    let mut by_place: Vec<Record> = records(&survey.amendments).collect();
    by_place.sort_by_key(|record| record.place);
    [
        ("the records in force as the corner table, of day 0", with_corners(0)),
        ("the same of the last day", with_corners(65_535)),
        ("the same with amendments that are all older", with_corners(65_535).amended(older)),
        ("the amendments by their corners", survey.clone().amended(by_place)),
    ]
}

#[cfg(test)]
mod tests {
    use std::iter::once;

    use super::*;
    use crate::document;
    use crate::generate;

    fn bits(records: impl Iterator<Item = Record>) -> Vec<u32> {
        records.map(|record| record.sounding.to_bits()).collect()
    }

    fn in_force_bits(survey: &Survey) -> Vec<u32> {
        bits(in_force(survey).into_iter().map(|held| held.record))
    }

    #[test]
    fn the_soundings_in_force_are_those_handed_in() {
        for base in [document::one_corner_wet(), document::centre_wet(), document::full()] {
            let expected = bits(records(&base.corners));
            for (seed, count) in (0..).zip([0, 1, 2, 3, 20, 100, MOST, MOST]) {
                let amended = with_amendments(&mut Random::new(seed), &base, count);
                assert_eq!(amended.amendments.len(), count * Record::BYTES, "seed {seed}");
                assert_eq!(in_force_bits(&amended), expected, "seed {seed}");
            }
        }
    }

    #[test]
    fn surveys_are_alike_in_what_is_in_force() {
        for seed in 0..100 {
            let survey = generate::small_interior(seed, 8);
            for (what, other) in alike(&survey) {
                assert_eq!(in_force_bits(&other), in_force_bits(&survey), "seed {seed}: {what}");
            }
        }
    }

    /// How a record's day and its number rank it among those for its corner. The corner table's record has the number 0.
    type Rank = fn(u16, usize) -> (i32, i32);

    /// The soundings that are in force if the record of the highest rank holds.
    fn by_rank(survey: &Survey, rank: Rank) -> Vec<u32> {
        let amendments: Vec<Record> = records(&survey.amendments).collect();
        let strongest = |own: Record| {
            let all = once(own).chain(amendments.iter().copied()).enumerate();
            let here = all.filter(|(_, record)| record.place == own.place);
            here.max_by_key(|&(number, record)| rank(record.day, number)).expect("its own").1
        };
        bits(records(&survey.corners).map(strongest))
    }

    #[test]
    fn every_wrong_reading_shows() {
        let right: Rank = |day, number| (day.into(), number as i32);
        let wrong: [(&str, Rank); 8] = [
            ("the corner table alone", |_, number| (-(number.min(1) as i32), 0)),
            ("the last record", |_, number| (0, number as i32)),
            ("the corner table beats an amendment of its day", |day, number| {
                (day.into(), if number == 0 { 1_001 } else { number as i32 })
            }),
            ("an earlier amendment beats a later one", |day, number| {
                (day.into(), if number == 0 { -1_001 } else { -(number as i32) })
            }),
            ("the lowest day", |day, number| (-i32::from(day), number as i32)),
            ("days with a sign", |day, number| ((day as i16).into(), number as i32)),
            ("days from their high byte on", |day, number| (day.swap_bytes().into(), number as i32)),
            ("the low byte of a day", |day, number| ((day & 0xff).into(), number as i32)),
        ];
        let surveys: Vec<Survey> = (0..400).map(|seed| generate::small_interior(seed, 8)).collect();
        for (number, survey) in surveys.iter().enumerate() {
            assert_eq!(by_rank(survey, right), in_force_bits(survey), "seed {number}");
        }
        for (what, rank) in wrong {
            let seen = surveys.iter().filter(|survey| by_rank(survey, rank) != in_force_bits(survey)).count();
            assert!(seen > 20, "{what}: seen in {seen} of 400");
        }
    }

    /// Soundings that are not lawful stand in both tables, and never in force.
    #[test]
    fn records_out_of_force_hold_anything() {
        let unlawful = |table: &[u8]| {
            records(table).any(|record| record.sounding.is_nan() || record.sounding.abs() > 1_048_576.0)
        };
        let surveys = (0..400).map(|seed| generate::small_interior(seed, 8));
        let [mut corners, mut amendments] = [0; 2];
        for survey in surveys {
            corners += usize::from(unlawful(&survey.corners));
            amendments += usize::from(unlawful(&survey.amendments));
        }
        assert!(corners > 80 && amendments > 80, "{corners} corner tables, {amendments} amendment tables");
    }
}
