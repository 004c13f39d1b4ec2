//! Random damaged surveys, each from one seed: one kind of damage for each refusal 1 to 8, 14 and 15, and several
//! together; and surveys with bits flipped and bytes lost, about which nothing is known beforehand.

use std::collections::BTreeSet;
use std::iter::repeat_with;

use crate::amendments;
use crate::generate;
use crate::plain::{in_force, records};
use crate::random::Random;
use crate::refusals::{AMENDMENT_PLACE, AMENDMENT_TABLE, ORDER};
use crate::soundings::unlawful;
use crate::survey::{table, too_deep_table, without_days, Record};
use crate::Survey;

const CELL_RECORD: usize = 4;
const MOST_CELL_BYTES: usize = 8_196;
const MOST_CORNER_BYTES: usize = 58_464;
const MOST_AMENDMENT_BYTES: usize = amendments::MOST * Record::BYTES;

/// A survey that is refused.
pub struct Damaged {
    /// The survey.
    pub survey: Survey,
    /// The refusal it must meet.
    pub refusal: u32,
}

/// A survey with one to three kinds of damage; the refusal is that of the first check that finds any.
pub fn damaged(seed: u64) -> Damaged {
    let random = &mut Random::new(seed);
    let kinds: BTreeSet<u32> = (0..=random.below(3)).map(|_| random.pick(&ORDER)).collect();
    damaged_by(random, &kinds)
}

/// A survey with one kind of damage, by the number of its refusal: one of [`ORDER`].
pub fn damaged_for(refusal: u32, seed: u64) -> Damaged {
    damaged_by(&mut Random::new(seed), &BTreeSet::from([refusal]))
}

/// Damage is done from the last check to the first, so that none of it undoes damage that an earlier check finds. Most of
/// the surveys would be refused for drawing by 12 too, which comes after all of it.
fn damaged_by(random: &mut Random, kinds: &BTreeSet<u32>) -> Damaged {
    let mut survey = generate::survey(random.bits());
    let in_order: Vec<u32> = ORDER.into_iter().filter(|number| kinds.contains(number)).collect();
    for &kind in in_order.iter().rev() {
        damage(random, &mut survey, kind);
    }
    Damaged { survey, refusal: in_order[0] }
}

fn damage(random: &mut Random, survey: &mut Survey, kind: u32) {
    match kind {
        1 => break_length(random, &mut survey.cells, CELL_RECORD, MOST_CELL_BYTES),
        2 => break_corner_length(random, &mut survey.corners),
        3 => break_entries(random, &mut survey.cells),
        4 => survey.cells = too_deep_table(|| random.below(8)),
        5 => break_order(random, &mut survey.corners),
        6 => break_corner_set(random, &mut survey.corners),
        AMENDMENT_TABLE => break_amendment_length(random, &mut survey.amendments),
        AMENDMENT_PLACE => break_amendment_place(random, survey),
        7 => break_sounding(random, survey),
        _ => survey.clearance = unlawful(random),
    }
}

/// A random survey with flipped bits, lost bytes, records that change places and extreme numbers, now and then with corner
/// records that have no day. It may be lawful still, and drawn or open at the box.
pub fn corrupted(seed: u64) -> Survey {
    let random = &mut Random::new(seed);
    let mut survey = generate::small_mixed(random.bits(), 6);
    for _ in 0..=random.below(3) {
        let (table, record) = match random.below(4) {
            0 => (&mut survey.cells, CELL_RECORD),
            1 => (&mut survey.amendments, Record::BYTES),
            _ => (&mut survey.corners, Record::BYTES),
        };
        corrupt(random, table, record);
    }
    if random.one_in(8) {
        survey.clearance = f32::from_bits(random.bits() as u32);
    }
    if random.one_in(16) {
        survey.corners = without_days(&survey.corners);
    }
    survey
}

/// Flips a bit, loses bytes, changes a byte or lets two records change places.
pub(crate) fn corrupt(random: &mut Random, table: &mut Vec<u8>, record: usize) {
    if table.len() < record {
        return;
    }
    let at = random.below(table.len());
    match random.below(8) {
        0 => table.truncate(at),
        1 => table.truncate(at / record * record),
        2 => table[at] = random.pick(&[0x00, 0x7f, 0x80, 0xff]),
        3 | 4 => {
            let one = record_start(random, table, record);
            let other = record_start(random, table, record);
            (0..record).for_each(|byte| table.swap(one + byte, other + byte));
        }
        _ => table[at] ^= 1 << random.below(8),
    }
}

/// Where a random whole record of a table starts.
fn record_start(random: &mut Random, table: &[u8], record: usize) -> usize {
    random.below(table.len() / record) * record
}

/// Refusal 2, with a table among the lengths that has no days and is not whole records.
fn break_corner_length(random: &mut Random, corners: &mut Vec<u8>) {
    let undated = without_days(corners);
    if random.one_in(4) && !undated.len().is_multiple_of(Record::BYTES) {
        *corners = undated;
    } else {
        break_length(random, corners, Record::BYTES, MOST_CORNER_BYTES);
    }
}

/// Refusal 14: not whole records, or over the limit. An empty table is lawful.
fn break_amendment_length(random: &mut Random, amendments: &mut Vec<u8>) {
    match random.below(3) {
        0 => {
            let over = random.pick(&[1, Record::BYTES, MOST_AMENDMENT_BYTES]);
            amendments.resize(MOST_AMENDMENT_BYTES + over, 0);
        }
        1 if !amendments.is_empty() => shorten(random, amendments, Record::BYTES),
        _ => amendments.resize(amendments.len() + 1 + random.below(Record::BYTES - 1), 0),
    }
}

/// Takes a part of the last record away.
pub(crate) fn shorten(random: &mut Random, table: &mut Vec<u8>, record: usize) {
    table.truncate(table.len() - 1 - random.below(record - 1));
}

/// Refusals 1 and 2: empty, not whole records, or over the limit, which is whole records.
fn break_length(random: &mut Random, table: &mut Vec<u8>, record: usize, most: usize) {
    match random.below(3) {
        0 => table.clear(),
        1 => shorten(random, table, record),
        _ => table.resize(most + record, 0),
    }
}

/// Refusal 3: any change of a single entry changes the number of splits or breaks the rule for that entry.
fn break_entries(random: &mut Random, cells: &mut Vec<u8>) {
    match random.below(4) {
        0 if cells.len() < MOST_CELL_BYTES => cells.extend([0; CELL_RECORD]),
        1 if cells.len() > CELL_RECORD => cells.truncate(cells.len() - CELL_RECORD),
        _ => {
            let at = record_start(random, cells, CELL_RECORD);
            let entry = [cells[at], cells[at + 1], cells[at + 2], cells[at + 3]];
            let near = u32::from_le_bytes(entry).wrapping_add(8);
            let others = [0, 1, near, near.wrapping_sub(16), u32::MAX, 1 << 31, random.bits() as u32];
            let others: Vec<u32> = others.into_iter().filter(|other| other.to_le_bytes() != entry).collect();
            cells[at..at + CELL_RECORD].copy_from_slice(&random.pick(&others).to_le_bytes());
        }
    }
}

/// Refusal 5: two different records change places, or one stands twice.
fn break_order(random: &mut Random, corners: &mut [u8]) {
    let last = corners.len() / Record::BYTES - 1;
    let one = random.below(last);
    let other = one + 1 + random.below(last - one);
    for byte in 0..Record::BYTES {
        corners.swap(one * Record::BYTES + byte, other * Record::BYTES + byte);
    }
    if random.one_in(3) {
        let start = other * Record::BYTES;
        corners.copy_within(start..start + Record::BYTES, one * Record::BYTES);
    }
}

/// Refusal 6: a record is lost, or one comes in at its due place that is no cell's corner.
fn break_corner_set(random: &mut Random, corners: &mut Vec<u8>) {
    if random.one_in(2) || corners.len() == MOST_CORNER_BYTES {
        let start = record_start(random, corners, Record::BYTES);
        corners.drain(start..start + Record::BYTES);
        return;
    }
    let reversed = |[x, y, z]: [u16; 3]| [z, y, x];
    let place = no_corner(random, corners);
    let before = records(corners).filter(|record| reversed(record.place) < reversed(place)).count();
    let start = before * Record::BYTES;
    corners.splice(start..start, Record { place, sounding: -1.0, day: random.bits() as u16 }.bytes());
}

/// A place in the box or beyond it that no record of a corner table has.
fn no_corner(random: &mut Random, corners: &[u8]) -> [u16; 3] {
    let places: BTreeSet<[u16; 3]> = records(corners).map(|record| record.place).collect();
    let bound = random.pick(&[1_025, 65_536]);
    repeat_with(|| [0; 3].map(|_: u16| random.below(bound) as u16))
        .find(|place| !places.contains(place))
        .expect("most places are no corner")
}

/// Refusal 15: an amendment comes in that is at no cell's corner, of any day and with any sounding. A full table has one
/// less of the others.
fn break_amendment_place(random: &mut Random, survey: &mut Survey) {
    let mut amendments: Vec<Record> = records(&survey.amendments).collect();
    if survey.amendments.len() == MOST_AMENDMENT_BYTES {
        amendments.swap_remove(random.below(amendments.len()));
    }
    let place = no_corner(random, &survey.corners);
    let sounding = if random.one_in(2) { unlawful(random) } else { -1.0 };
    let stray = Record { place, sounding, day: random.pick(&[0, 1, 65_535]) };
    amendments.insert(random.below(amendments.len() + 1), stray);
    survey.amendments = table(amendments);
}

/// Refusal 7: a record in force gets a sounding that is not lawful.
fn break_sounding(random: &mut Random, survey: &mut Survey) {
    let corner = random.below(survey.corners.len() / Record::BYTES);
    let (table, number) = match in_force(survey)[corner].amendment {
        None => (&mut survey.corners, corner),
        Some(number) => (&mut survey.amendments, number),
    };
    let at = number * Record::BYTES + 6;
    table[at..at + 4].copy_from_slice(&unlawful(random).to_le_bytes());
}
