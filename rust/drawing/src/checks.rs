//! Checks 1 to 8: document 01, "Outputs and refusals". Checks 12 to 15: document 02, "Basins cut off by the box", "Water in
//! the pool" and "Resounding a few corners". Check 21: "A convoy on one way". Checks 16 and 17 are those of a calendar, 18 to
//! 20 those of a way.

use crate::amendments::amend;
use crate::refusal::Refusal;
use crate::survey::{corner_at, length_at, offset, Cell, Corner, Lawful, DEEPEST};
use crate::Survey;

const CELL_RECORD: usize = 4;
const MOST_CELLS: usize = 2_049;
/// The size of a corner record and of an amendment.
const CORNER_RECORD: usize = 12;
const MOST_CORNERS: usize = 4_872;
const MOST_AMENDMENTS: usize = 1_000;
const MOST_BOATS: usize = 16;
const RANGE: f32 = 1_048_576.0;

/// Reads a survey from its tables: checks 1 to 6, 14, 15 and 7.
pub(crate) fn read(Survey { cells, corners, amendments }: Survey) -> Result<Lawful, Refusal> {
    let lawful_cells = !cells.is_empty() && holds_records(cells, CELL_RECORD, MOST_CELLS);
    refuse_unless(lawful_cells, Refusal::CellBytes)?;
    let lawful_corners = !corners.is_empty() && holds_records(corners, CORNER_RECORD, MOST_CORNERS);
    refuse_unless(lawful_corners, Refusal::CornerBytes)?;
    let entries: Vec<usize> = cells.chunks_exact(CELL_RECORD).map(entry).collect();
    refuse_unless(entries_follow_rule(&entries), Refusal::CellEntry)?;
    let cells = place_cells(&entries)?;
    let mut corners = read_corners(corners);
    let rising = corners.windows(2).all(|pair| pair[0].rank() < pair[1].rank());
    refuse_unless(rising, Refusal::CornerOrder)?;
    let cell_corners = match_corners(&cells, &corners)?;
    refuse_unless(holds_records(amendments, CORNER_RECORD, MOST_AMENDMENTS), Refusal::AmendmentBytes)?;
    amend(&mut corners, &read_corners(amendments))?;
    let sounded = corners.iter().all(|corner| in_range(corner.sounding));
    refuse_unless(sounded, Refusal::Sounding)?;
    Ok(Lawful { cells, corners, cell_corners })
}

/// Check 8.
pub(crate) fn clearance(clearance: f32) -> Result<(), Refusal> {
    refuse_unless(in_range(clearance), Refusal::Clearance)
}

/// Check 21, then check 8 of every clearance of a convoy.
pub(crate) fn convoy(clearances: &[f32]) -> Result<(), Refusal> {
    refuse_unless((1..=MOST_BOATS).contains(&clearances.len()), Refusal::Convoy)?;
    clearances.iter().try_for_each(|&one| clearance(one))
}

/// Check 12, of a drawing and its volume: no corner on an outer face of the box is wet.
pub(crate) fn closed_at_box(survey: &Lawful, clearance: f32) -> Result<(), Refusal> {
    let is_open = |corner: &Corner| corner.is_on_outer_face() && corner.is_wet(clearance);
    refuse_unless(!survey.corners.iter().any(is_open), Refusal::OpenAtBox)
}

/// Check 13, of the volume alone: the reference is a point of the box.
pub(crate) fn reference(point: [u32; 3]) -> Result<(), Refusal> {
    let in_box = point.iter().all(|&coordinate| coordinate <= u32::from(length_at(0)));
    refuse_unless(in_box, Refusal::Reference)
}

pub(crate) fn refuse_unless(lawful: bool, refusal: Refusal) -> Result<(), Refusal> {
    if lawful {
        Ok(())
    } else {
        Err(refusal)
    }
}

fn holds_records(table: &[u8], record: usize, most: usize) -> bool {
    table.len().is_multiple_of(record) && table.len() / record <= most
}

fn entry(record: &[u8]) -> usize {
    u32::from_le_bytes([record[0], record[1], record[2], record[3]]) as usize
}

/// The records of a corner table or an amendment table.
fn read_corners(table: &[u8]) -> Vec<Corner> {
    let corner = |record: &[u8]| {
        let number = |at: usize| u16::from_le_bytes([record[at], record[at + 1]]);
        let sounding = f32::from_le_bytes([record[6], record[7], record[8], record[9]]);
        Corner { place: [number(0), number(2), number(4)], sounding, day: number(10) }
    };
    table.chunks_exact(CORNER_RECORD).map(corner).collect()
}

/// A NaN is in no range, since no comparison with it holds.
fn in_range(number: f32) -> bool {
    number.abs() <= RANGE
}

/// Check 3: the split record with k split records before it holds 1 + 8k, greater than its own number, and
/// the table ends with the children of the last one.
fn entries_follow_rule(entries: &[usize]) -> bool {
    let mut end = 1;
    for (record, &entry) in entries.iter().enumerate() {
        if entry == 0 {
            continue;
        }
        if entry != end || entry <= record {
            return false;
        }
        end += 8;
    }
    entries.len() == end
}

/// Check 4. By check 3 the children of the split records, one after another, are the records 1, 2, 3 and on,
/// and each comes after its parent; so cells are placed by appending.
fn place_cells(entries: &[usize]) -> Result<Vec<Cell>, Refusal> {
    let mut cells = Vec::with_capacity(entries.len());
    cells.push(Cell { low: [0; 3], level: 0, first_child: None });
    for (record, &entry) in entries.iter().enumerate() {
        if entry == 0 {
            continue;
        }
        let parent: &mut Cell = &mut cells[record];
        refuse_unless(parent.level < DEEPEST, Refusal::TooDeep)?;
        parent.first_child = Some(entry);
        let Cell { low, level, .. } = *parent;
        let half = cells[record].size() / 2;
        cells.extend((0..8).map(|place| Cell {
            low: offset(low, place, half),
            level: level + 1,
            first_child: None,
        }));
    }
    Ok(cells)
}

/// Check 6: finds the records of every cell's corners, and sees that no record is left over.
fn match_corners(cells: &[Cell], corners: &[Corner]) -> Result<Vec<[u16; 8]>, Refusal> {
    let mut met = vec![false; corners.len()];
    let mut cell_corners = Vec::with_capacity(cells.len());
    for cell in cells {
        let mut records = [0; 8];
        for (place, slot) in records.iter_mut().enumerate() {
            let record = corner_at(corners, cell.corner(place)).ok_or(Refusal::CornerSet)?;
            met[record] = true;
            *slot = record as u16;
        }
        cell_corners.push(records);
    }
    refuse_unless(met.iter().all(|&met| met), Refusal::CornerSet)?;
    Ok(cell_corners)
}
