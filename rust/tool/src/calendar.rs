//! A calendar in words: document 02, "Clearance by calendar".

use clearance::Refusal;
use surveys::calendars::{Period, YEAR_END};
use surveys::plain::periods;
use surveys::refusals::out_of_range;

use crate::failure::refused;

const MINUTES_OF_A_DAY: u32 = 1_440;

/// So many records that break a rule are shown: a file that is no calendar has very many.
const MOST_BREACHES: usize = 20;

/// Every record and every gap of a calendar, and what is in force at this minute; or, if the calendar is refused, which records break which rules. The words
/// are an error where the calendar is refused, or a drawing at this minute, by 17 or 8.
pub fn words(calendar: &[u8], minute: Option<u32>) -> Result<String, String> {
    let periods: Vec<Period> = periods(calendar).collect();
    let breaches = breaches(&periods, calendar.len() % Period::BYTES);
    if !breaches.is_empty() {
        return Err(lines([refused(Refusal::Calendar)].into_iter().chain(breaches)));
    }
    let head = match periods.len() {
        0 => String::from("lawful: empty, so that no clearance is in force at any minute"),
        count => format!("lawful: {}", counted(count, "record")),
    };
    let shown = |asked| lines([head].into_iter().chain(year(&periods)).chain(asked));
    match minute.map(|minute| in_force(&periods, minute)) {
        None => Ok(shown(None)),
        Some(Ok(said)) => Ok(shown(Some(said))),
        Some(Err(said)) => Err(shown(Some(said))),
    }
}

/// Each with its line feed.
fn lines(lines: impl Iterator<Item = String>) -> String {
    lines.map(|line| line + "\n").collect()
}

/// So many of these, in the singular if it is one.
fn counted(count: usize, what: &str) -> String {
    let ending = if count == 1 { "" } else { "s" };
    format!("{count} {what}{ending}")
}

/// A minute of the year, also as day and time of day. Day 1 has the minutes 0 to 1,439.
fn moment(minute: u32) -> String {
    let (day, of_day) = (minute / MINUTES_OF_A_DAY + 1, minute % MINUTES_OF_A_DAY);
    format!("{minute} (day {day} {:02}:{:02})", of_day / 60, of_day % 60)
}

fn stretch(from: u32, until: u32) -> String {
    format!("from {} until {}", moment(from), moment(until))
}

fn clearance(clearance: f32) -> String {
    let mark = if out_of_range(clearance) { ", refused by 8 when in force" } else { "" };
    format!("clearance {clearance}{mark}")
}

/// The year in words, from its first minute to its last: a line for each record of a lawful calendar, and for each gap.
fn year(periods: &[Period]) -> Vec<String> {
    let mut lines = Vec::new();
    let mut ended = 0;
    for (number, period) in periods.iter().enumerate() {
        lines.extend(gap(ended, period.from));
        let words = [stretch(period.from, period.until), clearance(period.clearance)].join(": ");
        lines.push(format!("record {number}: {words}"));
        ended = period.until;
    }
    lines.extend(gap(ended, YEAR_END));
    lines
}

/// The gap in which nothing is in force, if there is one.
fn gap(from: u32, until: u32) -> Option<String> {
    (from < until).then(|| format!("gap: {}", stretch(from, until)))
}

/// What is in force at a minute of a lawful calendar; an error where a drawing at this minute is refused for it.
fn in_force(periods: &[Period], minute: u32) -> Result<String, String> {
    let at = format!("minute {}", moment(minute));
    let found = periods.iter().position(|period| (period.from..period.until).contains(&minute));
    let Some(number) = found else {
        return Err(format!("{at}: no record is in force; a drawing is refused by 17"));
    };
    let clearance = periods[number].clearance;
    let said = format!("{at}: record {number} is in force, clearance {clearance}");
    if out_of_range(clearance) {
        Err(said + ", refused by 8")
    } else {
        Ok(said)
    }
}

/// The first records that break a rule, each with what it breaks, and how many more there are; and the bytes behind the last whole record, if there are any.
fn breaches(periods: &[Period], bytes_over: usize) -> Vec<String> {
    let mut breaches: Vec<String> = (0..periods.len()).filter_map(|number| breach(periods, number)).collect();
    let more = breaches.len().saturating_sub(MOST_BREACHES);
    breaches.truncate(MOST_BREACHES);
    breaches.extend((more > 0).then(|| format!("and {more} more")));
    let [whole, over] = [counted(periods.len(), "whole record"), counted(bytes_over, "byte")];
    breaches.extend((bytes_over > 0).then(|| format!("behind {whole}: {over} of another")));
    breaches
}

/// The rules that a record breaks, if any.
fn breach(periods: &[Period], number: usize) -> Option<String> {
    let Period { from, until, .. } = periods[number];
    let ahead = number.checked_sub(1).map(|ahead| (ahead, periods[ahead].until));
    let mut broken = Vec::new();
    if from >= until {
        broken.push(String::from("its from is not below its until"));
    }
    if until > YEAR_END {
        broken.push(format!("its until is above {YEAR_END}"));
    }
    if let Some((ahead, end)) = ahead.filter(|&(_, end)| from < end) {
        broken.push(format!("it begins before record {ahead} has ended, at {}", moment(end)));
    }
    let line = || format!("record {number}: {}: {}", stretch(from, until), broken.join("; "));
    (!broken.is_empty()).then(line)
}

#[cfg(test)]
mod tests {
    use super::*;
    use surveys::calendars::table;

    fn calendar(records: &[(u32, u32, f32)]) -> Vec<u8> {
        table(records.iter().map(|&(from, until, clearance)| Period { from, until, clearance }))
    }

    #[test]
    fn minutes_have_days_and_times_of_day() {
        let cases = [
            (0, "0 (day 1 00:00)"),
            (61, "61 (day 1 01:01)"),
            (1_439, "1439 (day 1 23:59)"),
            (1_440, "1440 (day 2 00:00)"),
            (527_039, "527039 (day 366 23:59)"),
            (527_040, "527040 (day 367 00:00)"),
            (u32::MAX, "4294967295 (day 2982617 04:15)"),
        ];
        for (minute, text) in cases {
            assert_eq!(moment(minute), text);
        }
    }

    #[test]
    fn a_lawful_calendar_is_shown_with_its_gaps() {
        let seasons = calendar(&[(0, 1_440, 0.5), (1_440, 2_940, f32::NAN), (4_320, 4_321, -1_048_577.0)]);
        let expected = "lawful: 3 records\n\
            record 0: from 0 (day 1 00:00) until 1440 (day 2 00:00): clearance 0.5\n\
            record 1: from 1440 (day 2 00:00) until 2940 (day 3 01:00): clearance NaN, refused by 8 when in force\n\
            gap: from 2940 (day 3 01:00) until 4320 (day 4 00:00)\n\
            record 2: from 4320 (day 4 00:00) until 4321 (day 4 00:01): clearance -1048577, refused by 8 when in force\n\
            gap: from 4321 (day 4 00:01) until 527040 (day 367 00:00)\n";
        assert_eq!(words(&seasons, None).as_deref(), Ok(expected));
        let asked = |minute| words(&seasons, Some(minute));
        let shown = |said| format!("{expected}minute {said}\n");
        assert_eq!(asked(0), Ok(shown("0 (day 1 00:00): record 0 is in force, clearance 0.5")));
        let refused = [
            (1_440, "1440 (day 2 00:00): record 1 is in force, clearance NaN, refused by 8"),
            (2_940, "2940 (day 3 01:00): no record is in force; a drawing is refused by 17"),
            (4_320, "4320 (day 4 00:00): record 2 is in force, clearance -1048577, refused by 8"),
            (527_040, "527040 (day 367 00:00): no record is in force; a drawing is refused by 17"),
        ];
        for (minute, said) in refused {
            assert_eq!(asked(minute), Err(shown(said)));
        }
    }

    #[test]
    fn a_calendar_without_records_and_one_without_gaps_are_lawful() {
        let empty = "lawful: empty, so that no clearance is in force at any minute\n\
            gap: from 0 (day 1 00:00) until 527040 (day 367 00:00)\n";
        assert_eq!(words(&[], None).as_deref(), Ok(empty));
        let whole = "lawful: 1 record\n\
            record 0: from 0 (day 1 00:00) until 527040 (day 367 00:00): clearance 1048576\n";
        assert_eq!(words(&calendar(&[(0, 527_040, 1_048_576.0)]), None).as_deref(), Ok(whole));
    }

    #[test]
    fn every_breach_is_named() {
        let records = [(100, 200, 0.0), (199, 300, 0.0), (300, 300, 0.0), (500, 400, 0.0), (1, 527_041, 0.0)];
        let broken = [calendar(&records), vec![0; 7]].concat();
        let expected = "refused 16: the calendar is not whole records or breaks a rule of calendars\n\
            record 1: from 199 (day 1 03:19) until 300 (day 1 05:00): it begins before record 0 has ended, at 200 (day 1 03:20)\n\
            record 2: from 300 (day 1 05:00) until 300 (day 1 05:00): its from is not below its until\n\
            record 3: from 500 (day 1 08:20) until 400 (day 1 06:40): its from is not below its until\n\
            record 4: from 1 (day 1 00:01) until 527041 (day 367 00:01): its until is above 527040; it begins before record 3 has ended, at 400 (day 1 06:40)\n\
            behind 5 whole records: 7 bytes of another\n";
        for minute in [None, Some(0), Some(150)] {
            assert_eq!(words(&broken, minute).unwrap_err(), expected);
        }
    }

    #[test]
    fn of_one_record_and_one_byte_the_singular_is_said() {
        let whole = calendar(&[(0, 60, 0.0)]);
        for (bytes, said) in [
            (&[&whole[..], &[0]].concat()[..], "behind 1 whole record: 1 byte of another"),
            (&whole[..11], "behind 0 whole records: 11 bytes of another"),
        ] {
            assert_eq!(words(bytes, None).unwrap_err().lines().last(), Some(said));
        }
    }

    #[test]
    fn of_many_breaches_the_first_are_named() {
        let text = words(&calendar(&[(7, 7, 0.0); 25]), None).unwrap_err();
        let [_, first, .., last] = text.lines().collect::<Vec<_>>()[..] else { panic!("{text}") };
        assert_eq!(
            first,
            "record 0: from 7 (day 1 00:07) until 7 (day 1 00:07): its from is not below its until"
        );
        assert_eq!((text.lines().count(), last), (22, "and 5 more"));
        assert_eq!(words(&calendar(&[(7, 7, 0.0); 20]), None).unwrap_err().lines().count(), 21);
    }
}
