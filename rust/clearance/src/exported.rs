//! The C interface of the proved static library, `include/clearance.h`, and the only module with unsafe code: each call made safe by itself. A slice
//! passes as a pointer and a length; the pointer of an empty slice is not null and is not followed.

use crate::Survey;

/// An edge to ask about.
#[repr(C)]
pub struct Edge {
    pub axis: u32,
    pub x: u32,
    pub y: u32,
    pub z: u32,
    pub length: u32,
}

/// The point from which a volume is reckoned.
#[repr(C)]
pub struct Reference {
    pub x: u32,
    pub y: u32,
    pub z: u32,
}

/// The enquiry's answer as plain numbers.
#[repr(C)]
pub struct Reply {
    pub number: u32,
    pub crossing: u32,
    pub point: u32,
    pub x: f32,
    pub y: f32,
    pub z: f32,
    pub wet_end: u32,
}

/// What drawing returns.
#[repr(C)]
pub struct Counts {
    pub number: u32,
    pub points: u32,
    pub triangles: u32,
}

/// What reckoning the volume returns.
#[repr(C)]
pub struct Water {
    pub number: u32,
    pub points: u32,
    pub triangles: u32,
    pub sixfold: i64,
}

/// What showing a way returns.
#[repr(C)]
pub struct Passage {
    pub number: u32,
    pub corners: u32,
}

extern "C" {
    fn clearance_version() -> u32;

    fn clearance_check(
        cells: *const u8,
        cells_length: usize,
        corners: *const u8,
        corners_length: usize,
        amendments: *const u8,
        amendments_length: usize,
    ) -> u32;

    fn clearance_enquire(
        cells: *const u8,
        cells_length: usize,
        corners: *const u8,
        corners_length: usize,
        amendments: *const u8,
        amendments_length: usize,
        clearance: f32,
        edge: Edge,
    ) -> Reply;

    fn clearance_draw(
        cells: *const u8,
        cells_length: usize,
        corners: *const u8,
        corners_length: usize,
        amendments: *const u8,
        amendments_length: usize,
        clearance: f32,
        points: *mut f32,
        points_length: usize,
        triangles: *mut u32,
        triangles_length: usize,
    ) -> Counts;

    fn clearance_draw_by_calendar(
        cells: *const u8,
        cells_length: usize,
        corners: *const u8,
        corners_length: usize,
        amendments: *const u8,
        amendments_length: usize,
        calendar: *const u8,
        calendar_length: usize,
        minute: u32,
        points: *mut f32,
        points_length: usize,
        triangles: *mut u32,
        triangles_length: usize,
    ) -> Counts;

    fn clearance_volume(
        cells: *const u8,
        cells_length: usize,
        corners: *const u8,
        corners_length: usize,
        amendments: *const u8,
        amendments_length: usize,
        clearance: f32,
        reference: Reference,
        points: *mut f32,
        points_length: usize,
        triangles: *mut u32,
        triangles_length: usize,
    ) -> Water;

    fn clearance_way(
        cells: *const u8,
        cells_length: usize,
        corners: *const u8,
        corners_length: usize,
        amendments: *const u8,
        amendments_length: usize,
        clearance: f32,
        start: u32,
        end: u32,
        way: *mut u16,
        way_length: usize,
        work: *mut u16,
        work_length: usize,
    ) -> Passage;

    fn clearance_convoy(
        cells: *const u8,
        cells_length: usize,
        corners: *const u8,
        corners_length: usize,
        amendments: *const u8,
        amendments_length: usize,
        clearances: *const f32,
        clearances_length: usize,
        start: u32,
        end: u32,
        way: *mut u16,
        way_length: usize,
        work: *mut u16,
        work_length: usize,
    ) -> Passage;
}

pub fn version() -> u32 {
    // SAFETY: the call takes nothing and returns a number.
    unsafe { clearance_version() }
}

pub fn check(Survey { cells, corners, amendments }: Survey) -> u32 {
    // SAFETY: each pointer and length is of a slice lent for the call; the library is proved to read only inside.
    unsafe {
        clearance_check(
            cells.as_ptr(),
            cells.len(),
            corners.as_ptr(),
            corners.len(),
            amendments.as_ptr(),
            amendments.len(),
        )
    }
}

pub fn enquire(Survey { cells, corners, amendments }: Survey, clearance: f32, edge: Edge) -> Reply {
    // SAFETY: each pointer and length is of a slice lent for the call; the library is proved to read only inside. Edge and reply are plain numbers.
    unsafe {
        clearance_enquire(
            cells.as_ptr(),
            cells.len(),
            corners.as_ptr(),
            corners.len(),
            amendments.as_ptr(),
            amendments.len(),
            clearance,
            edge,
        )
    }
}

pub fn draw(
    Survey { cells, corners, amendments }: Survey,
    clearance: f32,
    points: &mut [f32],
    triangles: &mut [u32],
) -> Counts {
    // SAFETY: each pointer and length is of a slice lent for the call, the last two for writing and to nobody else; the library is proved to read and
    // write only inside. Any bits are lawful elements.
    unsafe {
        clearance_draw(
            cells.as_ptr(),
            cells.len(),
            corners.as_ptr(),
            corners.len(),
            amendments.as_ptr(),
            amendments.len(),
            clearance,
            points.as_mut_ptr(),
            points.len(),
            triangles.as_mut_ptr(),
            triangles.len(),
        )
    }
}

pub fn draw_by_calendar(
    Survey { cells, corners, amendments }: Survey,
    calendar: &[u8],
    minute: u32,
    points: &mut [f32],
    triangles: &mut [u32],
) -> Counts {
    // SAFETY: as for `draw`. The calendar is lent for reading.
    unsafe {
        clearance_draw_by_calendar(
            cells.as_ptr(),
            cells.len(),
            corners.as_ptr(),
            corners.len(),
            amendments.as_ptr(),
            amendments.len(),
            calendar.as_ptr(),
            calendar.len(),
            minute,
            points.as_mut_ptr(),
            points.len(),
            triangles.as_mut_ptr(),
            triangles.len(),
        )
    }
}

pub fn volume(
    Survey { cells, corners, amendments }: Survey,
    clearance: f32,
    reference: Reference,
    points: &mut [f32],
    triangles: &mut [u32],
) -> Water {
    // SAFETY: as for `draw`. The reference is plain numbers.
    unsafe {
        clearance_volume(
            cells.as_ptr(),
            cells.len(),
            corners.as_ptr(),
            corners.len(),
            amendments.as_ptr(),
            amendments.len(),
            clearance,
            reference,
            points.as_mut_ptr(),
            points.len(),
            triangles.as_mut_ptr(),
            triangles.len(),
        )
    }
}

pub fn way(
    Survey { cells, corners, amendments }: Survey,
    clearance: f32,
    [start, end]: [u32; 2],
    way: &mut [u16],
    work: &mut [u16],
) -> Passage {
    // SAFETY: as for `draw`. The start and the end are plain numbers.
    unsafe {
        clearance_way(
            cells.as_ptr(),
            cells.len(),
            corners.as_ptr(),
            corners.len(),
            amendments.as_ptr(),
            amendments.len(),
            clearance,
            start,
            end,
            way.as_mut_ptr(),
            way.len(),
            work.as_mut_ptr(),
            work.len(),
        )
    }
}

pub fn convoy(
    Survey { cells, corners, amendments }: Survey,
    clearances: &[f32],
    [start, end]: [u32; 2],
    way: &mut [u16],
    work: &mut [u16],
) -> Passage {
    // SAFETY: as for `way`. The clearances are lent for reading.
    unsafe {
        clearance_convoy(
            cells.as_ptr(),
            cells.len(),
            corners.as_ptr(),
            corners.len(),
            amendments.as_ptr(),
            amendments.len(),
            clearances.as_ptr(),
            clearances.len(),
            start,
            end,
            way.as_mut_ptr(),
            way.len(),
            work.as_mut_ptr(),
            work.len(),
        )
    }
}
