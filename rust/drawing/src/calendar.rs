//! The clearance in force at a minute: document 02, "Clearance by calendar".

use crate::checks::refuse_unless;
use crate::refusal::Refusal;

/// The size of a calendar's record.
const RECORD: usize = 12;

/// Where the year ends: "until at most 527,040".
const YEAR_END: u32 = 527_040;

/// A record of a calendar.
#[derive(Clone, Copy)]
struct Period {
    from: u32,
    until: u32,
    clearance: f32,
}

impl Period {
    fn read(record: &[u8]) -> Period {
        let four_bytes = |at: usize| [record[at], record[at + 1], record[at + 2], record[at + 3]];
        Period {
            from: u32::from_le_bytes(four_bytes(0)),
            until: u32::from_le_bytes(four_bytes(4)),
            clearance: f32::from_le_bytes(four_bytes(8)),
        }
    }

    fn is_in_year(self) -> bool {
        self.from < self.until && self.until <= YEAR_END
    }
}

/// Checks 16 and 17. By check 16 the records rise, so that only the last of those begun can be in force.
pub(crate) fn clearance_at(calendar: &[u8], minute: u32) -> Result<f32, Refusal> {
    let periods = read(calendar)?;
    let begun = periods.partition_point(|period| period.from <= minute);
    let latest = periods[..begun].last().filter(|period| minute < period.until);
    latest.map(|period| period.clearance).ok_or(Refusal::Minute)
}

/// Check 16: whole records, each in the year, and none begins before the one ahead of it has ended.
fn read(calendar: &[u8]) -> Result<Vec<Period>, Refusal> {
    refuse_unless(calendar.len().is_multiple_of(RECORD), Refusal::Calendar)?;
    let periods: Vec<Period> = calendar.chunks_exact(RECORD).map(Period::read).collect();
    let in_year = periods.iter().all(|period| period.is_in_year());
    let in_turn = periods.windows(2).all(|pair| pair[0].until <= pair[1].from);
    refuse_unless(in_year && in_turn, Refusal::Calendar)?;
    Ok(periods)
}
