//! The exported call for a convoy itself, with clearances that are no slice of Rust: where their count is refused, they lie on an inaccessible page; and they
//! lie in the memory of a table.

use surveys::document;
use surveys::lent::short_numbers;
use surveys::refusals::CONVOY;
use surveys::survey::Record;

use crate::guarded::{Guarded, Side};

/// What the call returns.
#[repr(C)]
#[derive(Debug, PartialEq)]
struct Passage {
    number: u32,
    corners: u32,
}

extern "C" {
    fn clearance_convoy(
        cells: *const u8,
        cells_length: usize,
        corners: *const u8,
        corners_length: usize,
        amendments: *const u8,
        amendments_length: usize,
        clearances: *const f32,
        clearances_length: usize,
        start: u32,
        end: u32,
        way: *mut u16,
        way_length: usize,
        work: *mut u16,
        work_length: usize,
    ) -> Passage;
}

/// Asks for a way from the first corner to the last, at so many clearances. Gives back both slices too.
///
/// # Safety
///
/// There are so many clearances, or their count is refused.
unsafe fn across(
    cells: &[u8],
    corners: &[u8],
    clearances: *const f32,
    count: usize,
) -> (Passage, [Vec<u16>; 2]) {
    let records = corners.len() / Record::BYTES;
    let mut slices = [(); 2].map(|()| short_numbers(records, None));
    let [way, work] = &mut slices;
    let (cells, cells_length) = (cells.as_ptr(), cells.len());
    let (corners, corners_length) = (corners.as_ptr(), corners.len());
    let none = std::ptr::null();
    let last = records as u32 - 1;
    // SAFETY: each pointer and length is of a slice lent for the call; of the clearances the caller says so.
    let passage = unsafe {
        clearance_convoy(
            cells,
            cells_length,
            corners,
            corners_length,
            none,
            0,
            clearances,
            count,
            0,
            last,
            way.as_mut_ptr(),
            records,
            work.as_mut_ptr(),
            records,
        )
    };
    (passage, slices)
}

/// Among the counts are some whose low bits are those of a lawful one, and the most that a slice can have.
#[test]
fn a_convoy_of_none_or_too_many_is_not_read() {
    let survey = document::twin();
    let unreadable = Guarded::<f32>::new(&[], Side::Before);
    let untouched = [(); 2].map(|()| short_numbers(survey.corners.len() / Record::BYTES, None));
    let most = isize::MAX as usize / size_of::<f32>();
    for count in [0, 17, 18, 32, 257, 65_537, (1 << 32) + 1, (1 << 32) + 16, most] {
        // SAFETY: every count is refused.
        let (passage, slices) = unsafe { across(&survey.cells, &survey.corners, unreadable.first(), count) };
        assert_eq!(passage, Passage { number: CONVOY, corners: 0 }, "{count} clearances");
        assert_eq!(slices, untouched, "{count} clearances");
    }
}

/// The cell table of a box that is split once is nine numbers, which are clearances of the least number above 0 and of 0 too.
#[test]
fn clearances_may_lie_in_a_table() {
    let survey = document::wet_at(&[0], &[[0; 3], [512, 0, 0], [1_024, 0, 0]], f32::from_bits(2));
    let entries: Vec<u32> = survey.cells.chunks_exact(4).map(|entry| entry[0].into()).collect();
    let clearances: Vec<f32> = entries.iter().map(|&entry| f32::from_bits(entry)).collect();
    assert_eq!(clearances, [&[f32::from_bits(1)][..], &[0.0; 8]].concat());
    // SAFETY: the bytes of the numbers, which the machine has little-endian as the table has, are borrowed as long as these are.
    let cells = unsafe { std::slice::from_raw_parts(entries.as_ptr().cast::<u8>(), 4 * entries.len()) };
    assert_eq!(cells, survey.cells);
    for count in 1..=entries.len() {
        // SAFETY: there are so many numbers, and any bits are a clearance.
        let [within, apart] = [entries.as_ptr().cast(), clearances.as_ptr()]
            .map(|first| unsafe { across(cells, &survey.corners, first, count) });
        assert_eq!(within, apart, "{count} clearances");
        let work = &within.1[1];
        assert_eq!((work[0], work[1], work[2], work[3]), (1, 2, 3, 0), "{count} clearances");
    }
}
