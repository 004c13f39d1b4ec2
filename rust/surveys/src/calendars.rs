//! Calendars, and random ones to ask at a minute: document 02, "Clearance by calendar". What must come of it is known from
//! how they are made: the year is parted into stretches, each of which is a record or a gap, and the minute is taken from
//! one of them. What is refused is asked in a gap or beyond the year (17), or has one rule broken afterwards (16).

use std::collections::BTreeSet;
use std::iter::repeat_with;

use crate::damage::{corrupt, shorten};
use crate::random::Random;
use crate::refusals::{CALENDAR, MINUTE};
use crate::soundings::overruled;

/// The latest minute at which a record may end.
pub const YEAR_END: u32 = 527_040;

/// A record of a calendar.
#[derive(Clone, Copy, Debug)]
pub struct Period {
    /// Its first minute.
    pub from: u32,
    /// The minute at which it has ended.
    pub until: u32,
    /// The clearance in force meanwhile.
    pub clearance: f32,
}

impl Period {
    /// The size of a record in bytes.
    pub const BYTES: usize = 12;

    /// The record as it stands in its table.
    pub fn bytes(self) -> Vec<u8> {
        [self.from.to_le_bytes(), self.until.to_le_bytes(), self.clearance.to_le_bytes()].concat()
    }
}

/// A calendar of these records.
pub fn table(periods: impl IntoIterator<Item = Period>) -> Vec<u8> {
    periods.into_iter().flat_map(Period::bytes).collect()
}

/// A calendar with so many records of one minute each, one after another from the start of the year on, and these
/// clearances. Up to 527,040 are lawful.
pub fn minute_by_minute(count: u32, clearance: impl Fn(u32) -> f32) -> Vec<u8> {
    table((0..count).map(|from| Period { from, until: from + 1, clearance: clearance(from) }))
}

/// Where the minute of an [`Asked`] is, or what is wrong with its calendar.
#[derive(Clone, Copy, Debug, PartialEq, Eq, PartialOrd, Ord)]
pub enum Kind {
    /// The first minute of a record, which is the first of all or has a gap ahead of it.
    First,
    /// The first minute of a record, at which the one ahead of it ends.
    Touching,
    /// The last minute of a record, and not its first.
    Last,
    /// Another minute of a record.
    Within,
    /// In a gap, the minute at which the record ahead of it ends.
    Ended,
    /// Another minute in a gap between two records.
    Between,
    /// A minute ahead of all records, or behind them but for the first.
    Outside,
    /// Any minute of the year, in a calendar without records.
    Empty,
    /// A minute beyond the year; most would be in a record if its high bits or whole years were left out.
    Beyond,
    /// The calendar is not whole records.
    Part,
    /// A record begins before the one ahead of it has ended.
    Overlap,
    /// A record's from is not below its until.
    Turned,
    /// A record's until is above 527,040.
    Late,
}

impl Kind {
    /// Where a record is in force.
    pub const HOLDING: [Kind; 4] = [Kind::First, Kind::Touching, Kind::Last, Kind::Within];

    /// Where the minute is in no record.
    pub const IN_NONE: [Kind; 5] = [Kind::Ended, Kind::Between, Kind::Outside, Kind::Empty, Kind::Beyond];

    /// Where a rule is broken.
    pub const BROKEN: [Kind; 4] = [Kind::Part, Kind::Overlap, Kind::Turned, Kind::Late];
}

/// A calendar, and a minute to ask it at.
#[derive(Clone, Debug)]
pub struct Asked {
    /// The calendar.
    pub calendar: Vec<u8>,
    /// The minute.
    pub minute: u32,
    /// The clearance in force, lawful or not; or the refusal, 16 or 17.
    pub due: Result<f32, u32>,
    /// What it shows.
    pub kind: Kind,
}

/// A calendar asked at a minute at which this clearance is in force.
pub fn holding(seed: u64, clearance: f32) -> Asked {
    let random = &mut Random::new(seed);
    repeat_with(|| lawful(random, clearance)).find(|asked| asked.due.is_ok()).expect("most hold")
}

/// A calendar that is refused: it breaks a rule, or is asked at a minute in no record. A record that a wrong reading may find
/// in force has this clearance or any other.
pub fn refused(seed: u64, clearance: f32) -> Asked {
    let random = &mut Random::new(seed);
    match random.below(6) {
        0 | 1 => broken(random, clearance),
        2 => beyond(random, clearance),
        _ => {
            let in_none = |asked: &Asked| asked.due.is_err();
            repeat_with(|| lawful(random, clearance)).find(in_none).expect("many have gaps")
        }
    }
}

/// A lawful calendar of so many records, at most 1,000, asked at a minute of the one in the middle, which has this clearance.
pub fn of_records(count: u32, clearance: f32) -> Asked {
    let (length, middle) = (400, count / 2);
    let period = |number: u32| Period {
        from: 500 * number,
        until: 500 * number + length,
        clearance: if number == middle { clearance } else { f32::NAN },
    };
    let minute = period(middle).until - 1;
    Asked { calendar: table((0..count).map(period)), minute, due: Ok(clearance), kind: Kind::Last }
}

/// A lawful calendar in which bits were flipped, bytes lost and records have changed places. It may be lawful still; nothing
/// is known of it beforehand.
pub fn corrupted(seed: u64, clearance: f32) -> (Vec<u8>, u32) {
    let Asked { mut calendar, minute, .. } = holding(seed, clearance);
    let random = &mut Random::new(!seed);
    for _ in 0..=random.below(3) {
        corrupt(random, &mut calendar, Period::BYTES);
    }
    (calendar, minute)
}

/// A stretch of the year in which one record holds, or in which there is none.
#[derive(Clone, Copy)]
struct Stretch {
    from: u32,
    until: u32,
    clearance: Option<f32>,
}

impl Stretch {
    fn period(self) -> Option<Period> {
        let Stretch { from, until, clearance } = self;
        clearance.map(|clearance| Period { from, until, clearance })
    }
}

/// A lawful calendar, asked at any minute of the year. If that is in a record, it has this clearance; all others may hold
/// anything.
fn lawful(random: &mut Random, clearance: f32) -> Asked {
    let mut stretches = stretches(random, clearance);
    let number = random.below(stretches.len());
    let asked = &mut stretches[number];
    asked.clearance = asked.clearance.map(|_| clearance);
    let due = asked.clearance.ok_or(MINUTE);
    let minute = match random.below(3) {
        0 => asked.from,
        1 => asked.until - 1,
        _ => asked.from + random.below((asked.until - asked.from) as usize) as u32,
    };
    let kind = kind(&stretches, number, minute);
    Asked { calendar: table(stretches.into_iter().filter_map(Stretch::period)), minute, due, kind }
}

/// The year in stretches: no gaps, some or many; a few stretches, many, or many of a few minutes each.
fn stretches(random: &mut Random, clearance: f32) -> Vec<Stretch> {
    let gaps = random.pick(&[None, Some(2), Some(4)]);
    let borders: Vec<u32> = borders(random).into_iter().collect();
    let stretch = |pair: &[u32]| {
        let is_gap = gaps.is_some_and(|times| random.one_in(times));
        let clearance = (!is_gap).then(|| overruled(random, clearance));
        Stretch { from: pair[0], until: pair[1], clearance }
    };
    borders.windows(2).map(stretch).collect()
}

/// Where stretches begin and end: at both ends of the year, and anywhere, or close together, between them.
fn borders(random: &mut Random) -> BTreeSet<u32> {
    let year = YEAR_END as usize;
    let count = random.pick(&[0, 2, 4, 10, 100]);
    let (start, reach) = (random.below(year), random.pick(&[1 + 2 * count, 2_000, year]));
    let between = repeat_with(|| ((start + random.below(reach)) % year) as u32).take(count);
    between.chain([0, YEAR_END]).collect()
}

/// What a minute of the stretch of this number shows.
fn kind(stretches: &[Stretch], number: usize, minute: u32) -> Kind {
    let Stretch { from, until, clearance } = stretches[number];
    let is_record = |stretch: &Stretch| stretch.clearance.is_some();
    let [ahead, behind] = [&stretches[..number], &stretches[number + 1..]];
    let at_end_of_record = minute == from && ahead.last().is_some_and(is_record);
    let around = [ahead, behind].map(|others| others.iter().any(is_record));
    match (clearance, around) {
        (Some(_), _) if at_end_of_record => Kind::Touching,
        (Some(_), _) if minute == from => Kind::First,
        (Some(_), _) if minute == until - 1 => Kind::Last,
        (Some(_), _) => Kind::Within,
        (None, [false, false]) => Kind::Empty,
        (None, _) if at_end_of_record => Kind::Ended,
        (None, [true, true]) => Kind::Between,
        (None, _) => Kind::Outside,
    }
}

/// A lawful calendar asked beyond the year: at its end, at the end of time, or at a minute that some cutting of numbers
/// would bring back into it.
fn beyond(random: &mut Random, clearance: f32) -> Asked {
    let asked = lawful(random, clearance);
    let minute = match random.below(6) {
        0 => YEAR_END,
        1 => u32::MAX,
        _ => asked.minute + random.pick(&[YEAR_END, 2 * YEAR_END, 1 << 20, 1 << 24, 1 << 31]),
    };
    Asked { minute, due: Err(MINUTE), kind: Kind::Beyond, ..asked }
}

/// A calendar that breaks one rule in one place, asked anywhere.
fn broken(random: &mut Random, clearance: f32) -> Asked {
    let enough = |asked: &Asked| asked.calendar.len() >= 2 * Period::BYTES;
    let asked = repeat_with(|| lawful(random, clearance)).find(enough).expect("most have two records");
    let mut periods: Vec<Period> = crate::plain::periods(&asked.calendar).collect();
    let (number, last) = (random.below(periods.len()), periods.len() - 1);
    let kind = random.pick(&Kind::BROKEN);
    match kind {
        Kind::Overlap => overlap(random, &mut periods, number.max(1)),
        Kind::Turned => turn(random, &mut periods[number]),
        // Behind any other record that is late the next one would begin too early as well.
        Kind::Late => {
            periods[last].until = random.pick(&[YEAR_END + 1, YEAR_END + 1_440, 1 << 31, u32::MAX]);
        }
        _ => {}
    }
    let mut calendar = table(periods);
    if kind == Kind::Part {
        part(random, &mut calendar);
    }
    Asked { calendar, due: Err(CALENDAR), kind, ..asked }
}

/// A part of the last record is lost, or a part of another comes behind it.
fn part(random: &mut Random, calendar: &mut Vec<u8>) {
    if random.one_in(2) {
        shorten(random, calendar, Period::BYTES);
    } else {
        calendar.resize(calendar.len() + 1 + random.below(Period::BYTES - 1), 0);
    }
}

/// The record of this number begins before the one ahead of it has ended: by a minute or by more; or they change places.
fn overlap(random: &mut Random, periods: &mut [Period], number: usize) {
    let [ahead, this] = [periods[number - 1], periods[number]];
    match random.below(4) {
        0 => periods[number].from = ahead.until - 1,
        1 => periods[number].from = random.below(ahead.until as usize) as u32,
        2 => periods[number - 1].until = this.from + 1,
        _ => periods.swap(number - 1, number),
    }
}

/// The record ends as it begins, or before: turned around, or with a from that is negative if it is read so.
fn turn(random: &mut Random, period: &mut Period) {
    match random.below(4) {
        0 => period.until = period.from,
        1 => period.from = period.until,
        2 => std::mem::swap(&mut period.from, &mut period.until),
        _ => period.from |= 1 << 31,
    }
}
