//! The random calendars: what is due of them, what they show, and that every wrong rule of calendars shows on some.

use surveys::calendars::{holding, minute_by_minute, of_records, refused, Asked, Kind, Period, YEAR_END};
use surveys::plain::periods;
use surveys::refusals::{clearance_at, CALENDAR, MINUTE};
use surveys::tally::Kinds;

/// Calendars of every kind, with the clearance 2 where one is in force.
fn asked() -> impl Iterator<Item = (u64, Asked)> {
    (0..4_000).flat_map(|seed| [(seed, holding(seed, 2.0)), (seed, refused(seed, 2.0))])
}

fn bits(due: Result<f32, u32>) -> Result<u32, u32> {
    due.map(f32::to_bits)
}

#[test]
fn what_is_due_is_what_the_plain_checks_say() {
    let mut kinds = Kinds::default();
    for (seed, Asked { calendar, minute, due, kind }) in asked() {
        assert_eq!(bits(clearance_at(&calendar, minute)), bits(due), "seed {seed}: {kind:?}");
        let expected = match kind {
            kind if Kind::HOLDING.contains(&kind) => Ok(2.0),
            kind if Kind::IN_NONE.contains(&kind) => Err(MINUTE),
            _ => Err(CALENDAR),
        };
        assert_eq!(due, expected, "seed {seed}: {kind:?}");
        kinds.add(kind);
    }
    kinds.assert_all_met(80, "calendars");
}

#[test]
fn a_calendar_follows_from_its_seed() {
    let bytes = |asked: Asked| (asked.calendar, asked.minute);
    for made in [holding, refused] {
        assert_eq!(bytes(made(3, 1.0)), bytes(made(3, 1.0)));
        assert_ne!(bytes(made(3, 1.0)), bytes(made(4, 1.0)));
    }
}

#[test]
fn calendars_of_a_number_of_records_are_lawful() {
    for count in [1, 2, 1_000] {
        let Asked { calendar, minute, due, .. } = of_records(count, 2.0);
        assert_eq!(calendar.len(), count as usize * Period::BYTES);
        assert_eq!(bits(clearance_at(&calendar, minute)), bits(due), "{count} records");
    }
    for (count, last) in [(YEAR_END, Ok(527_039.0)), (YEAR_END + 1, Err(CALENDAR))] {
        let calendar = minute_by_minute(count, |minute| minute as f32);
        assert_eq!(clearance_at(&calendar, YEAR_END - 1), last, "{count} records");
    }
}

/// The lawful calendars have what an answer may stumble over.
#[test]
fn lawful_calendars_hold_anything_out_of_force() {
    type Shows = fn(&[Period]) -> bool;
    let shown: [(&str, Shows); 8] = [
        ("NaN", |periods| periods.iter().any(|period| period.clearance.is_nan())),
        ("infinity", |periods| periods.iter().any(|period| period.clearance.is_infinite())),
        ("from 0", |periods| periods[0].from == 0),
        ("until 527,040", |periods| periods[periods.len() - 1].until == YEAR_END),
        ("a minute long", |periods| periods.iter().any(|period| period.until == period.from + 1)),
        ("many", |periods| periods.len() > 50),
        ("touching", |periods| periods.windows(2).any(|pair| pair[0].until == pair[1].from)),
        ("with a gap", |periods| periods.windows(2).any(|pair| pair[0].until < pair[1].from)),
    ];
    let calendars: Vec<Vec<Period>> =
        (0..1_000).map(|seed| periods(&holding(seed, 2.0).calendar).collect()).collect();
    for (what, shows) in shown {
        let count = calendars.iter().filter(|periods| shows(periods)).count();
        assert!((100..950).contains(&count), "{what}: {count} of 1,000");
    }
}

/// The rules of calendars, for trying others in their place.
#[derive(Clone, Copy)]
struct Rules {
    /// Whether a calendar may have so many bytes.
    length: fn(usize) -> bool,
    /// Whether a record is in force at a minute.
    holds: fn(&Period, u32) -> bool,
    /// Whether a record may be so by itself.
    alone: fn(&Period) -> bool,
    /// Whether records may be so, that of this number after the one ahead of it.
    order: fn(&[Period], usize) -> bool,
    /// How many records, from the first on, are looked at for the rules, given which is in force.
    looked_at: fn(&[Period], Option<usize>) -> usize,
    /// Which clearance is taken.
    taken: fn(&[Period], usize) -> f32,
}

const RIGHT: Rules = Rules {
    length: |bytes| bytes % Period::BYTES == 0,
    holds: |period, minute| period.from <= minute && minute < period.until,
    alone: |period| period.from < period.until && period.until <= YEAR_END,
    order: |periods, number| periods[number - 1].until <= periods[number].from,
    looked_at: |periods, _| periods.len(),
    taken: |periods, number| periods[number].clearance,
};

fn read(rules: Rules, calendar: &[u8], minute: u32) -> Result<f32, u32> {
    let periods: Vec<Period> = periods(calendar).collect();
    let found = periods.iter().position(|period| (rules.holds)(period, minute));
    let looked_at = (rules.looked_at)(&periods, found);
    let is_lawful =
        |number| (rules.alone)(&periods[number]) && (number == 0 || (rules.order)(&periods, number));
    if !(rules.length)(calendar.len()) || !(0..looked_at).all(is_lawful) {
        return Err(CALENDAR);
    }
    found.map(|number| (rules.taken)(&periods, number)).ok_or(MINUTE)
}

fn wrong_rules() -> [(&'static str, Rules); 18] {
    let holds = |holds| Rules { holds, ..RIGHT };
    let alone = |alone| Rules { alone, ..RIGHT };
    let order = |order| Rules { order, ..RIGHT };
    let looked_at = |looked_at| Rules { looked_at, ..RIGHT };
    let taken = |taken| Rules { taken, ..RIGHT };
    [
        ("parts of records cut off", Rules { length: |_| true, ..RIGHT }),
        ("until included", holds(|period, minute| period.from <= minute && minute <= period.until)),
        ("from left out", holds(|period, minute| period.from < minute && minute < period.until)),
        ("minutes by the year", holds(|period, minute| (RIGHT.holds)(period, minute % YEAR_END))),
        ("minutes of 20 bits", holds(|period, minute| (RIGHT.holds)(period, minute % (1 << 20)))),
        ("minutes of 31 bits", holds(|period, minute| (RIGHT.holds)(period, minute % (1 << 31)))),
        ("from equal to until", alone(|period| period.from <= period.until && period.until <= YEAR_END)),
        ("any order of from and until", alone(|period| period.until <= YEAR_END)),
        (
            "with a sign",
            alone(|period| {
                (period.from as i32) < period.until as i32 && period.until as i32 <= YEAR_END as i32
            }),
        ),
        ("until 527,039", alone(|period| period.from < period.until && period.until < YEAR_END)),
        ("until 527,041", alone(|period| period.from < period.until && period.until <= YEAR_END + 1)),
        ("records that touch", order(|periods, number| periods[number - 1].until < periods[number].from)),
        ("where records begin", order(|periods, number| periods[number - 1].from < periods[number].from)),
        ("the first record", order(|periods, number| periods[0].until <= periods[number].from)),
        (
            "the record two ahead",
            order(|periods, number| number < 2 || periods[number - 2].until <= periods[number].from),
        ),
        (
            "up to the record in force",
            looked_at(|periods, found| found.map_or(periods.len(), |number| number + 1)),
        ),
        ("only where a record is in force", looked_at(|periods, found| found.map_or(0, |_| periods.len()))),
        ("the first clearance", taken(|periods, _| periods[0].clearance)),
    ]
}

#[test]
fn every_wrong_rule_shows() {
    let asked: Vec<Asked> = asked().map(|(_, asked)| asked).collect();
    let differs = |rules, asked: &&Asked| bits(read(rules, &asked.calendar, asked.minute)) != bits(asked.due);
    assert_eq!(asked.iter().filter(|asked| differs(RIGHT, asked)).count(), 0);
    for (what, rules) in wrong_rules() {
        let seen = asked.iter().filter(|asked| differs(rules, asked)).count();
        assert!(seen > 20, "{what}: seen in {seen} of {}", asked.len());
    }
}
