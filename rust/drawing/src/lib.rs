//! Clearance surfaces over a lock survey: a drawing of the rules of document 01, with what document 02 adds and
//! changes.
//!
//! A survey is a cell table (an octree), a corner table (a sounding at every corner of every cell) and amendments to that.
//! At a given clearance the surface between wet and dry corners is drawn as points on the octree's edges and
//! triangles between them. The method is that of document 003: edge-trees over an arbitrary octree.
//!
//! The modules follow the way of the data: [`check`] reads a survey and amends it; a calendar may say at which clearance it
//! is drawn; edge-trees are built over its cells; crossing points are numbered on them; face steps and twin steps make the
//! loops of each leaf; loops are cut into triangles; and the space inside these is reckoned. Over edges of which both ends are
//! wet the shortest way from corner to corner is shown, for one boat or for all boats of a convoy.

mod amendments;
mod calendar;
mod checks;
mod crossings;
mod edges;
mod faces;
mod loops;
mod outputs;
mod refusal;
mod survey;
mod volume;
mod way;

use crossings::Crossings;
use edges::EdgeTrees;
pub use outputs::{Drawing, Drawn};
use refusal::Refusal;
pub use volume::Water;
pub use way::Passage;

/// The tables of a survey, lawful or not.
#[derive(Clone, Copy, Debug)]
pub struct Survey<'a> {
    /// The cell table.
    pub cells: &'a [u8],
    /// The corner table.
    pub corners: &'a [u8],
    /// The amendment table: document 02, "Resounding a few corners".
    pub amendments: &'a [u8],
}

/// An end of an edge.
#[derive(Clone, Copy, Debug, PartialEq, Eq)]
pub enum End {
    /// The one from which the edge runs up its axis.
    Lower,
    /// The one to which it runs.
    Upper,
}

/// The answer to an edge enquiry: document 01, "Edges, points and places", and document 02, "Which end is wet".
#[derive(Clone, Copy, Debug, PartialEq)]
pub enum Edge {
    /// Both ends are wet or both are dry.
    Even,
    /// One end is wet and one is dry.
    Crossing {
        /// The number of the edge's point.
        number: u32,
        /// Where the point is: x, y and z.
        place: [f32; 3],
        /// The end that is wet.
        wet_end: End,
    },
}

/// Checks a survey by itself: 0 if lawful, else the first refusal of 1 to 6, 14, 15 and 7, in this order, that applies.
pub fn check(survey: Survey) -> u32 {
    checks::read(survey).map_or_else(Refusal::number, |_| 0)
}

/// Answers for the edge of some cell that runs along `axis` from its lower end (x, y, z) over `length`.
///
/// The refusals are those of [`check`], then 8, then 11 where no cell has this edge.
pub fn enquire(
    survey: Survey,
    clearance: f32,
    axis: u32,
    lower_end: [u32; 3],
    length: u32,
) -> Result<Edge, u32> {
    let answer = || {
        let survey = checks::read(survey)?;
        checks::clearance(clearance)?;
        let trees = EdgeTrees::over(&survey);
        let edge = trees.find_by_place(&survey, axis, lower_end, length).ok_or(Refusal::NoEdge)?;
        let crossings = Crossings::on(&survey, &trees, clearance);
        Ok(crossings.point_of(edge).map_or(Edge::Even, |number| Edge::Crossing {
            number,
            place: crossings.place(number),
            wet_end: crossings.wet_end(edge),
        }))
    };
    answer().map_err(Refusal::number)
}

/// Draws the surface into lent slices: document 01, "Outputs and refusals".
///
/// Points take three elements each, triangles three each; elements past the last are untouched. A refusal
/// (those of [`check`], then 8, 12, 9 and 10) touches neither slice.
pub fn draw(survey: Survey, clearance: f32, points: &mut [f32], triangles: &mut [u32]) -> Drawn {
    write_down(outputs::drawing(survey, clearance), points, triangles)
}

/// Draws the surface into lent slices as [`draw`] does, at the clearance that a calendar has in force at a minute: document
/// 02, "Clearance by calendar".
///
/// The refusals are those of [`check`], then 16, 17, 8, 12, 9 and 10.
pub fn draw_by_calendar(
    survey: Survey,
    calendar: &[u8],
    minute: u32,
    points: &mut [f32],
    triangles: &mut [u32],
) -> Drawn {
    write_down(outputs::drawing_by_calendar(survey, calendar, minute), points, triangles)
}

fn write_down(drawing: Result<Drawing, Refusal>, points: &mut [f32], triangles: &mut [u32]) -> Drawn {
    match drawing {
        Ok(drawing) => drawing.write(points, triangles),
        Err(refusal) => Drawn::refused(refusal),
    }
}

/// Draws the surface into vectors of its own. The refusals are those of [`check`], then 8 and 12.
pub fn draw_to_vec(survey: Survey, clearance: f32) -> Result<Drawing, u32> {
    outputs::drawing(survey, clearance).map_err(Refusal::number)
}

/// Draws the surface into lent slices as [`draw`] does, and reckons the space inside from a reference point: document
/// 02, "Water in the pool".
///
/// The refusals are those of [`check`], then 8, 12, 13, 9 and 10.
pub fn volume(
    survey: Survey,
    clearance: f32,
    reference: [u32; 3],
    points: &mut [f32],
    triangles: &mut [u32],
) -> Water {
    let drawing = outputs::drawing(survey, clearance);
    match drawing.and_then(|drawing| checks::reference(reference).map(|()| drawing)) {
        Ok(drawing) => {
            let drawn = drawing.write(points, triangles);
            let sixfold = if drawn.number == 0 { drawing.sixfold(reference) } else { 0 };
            Water { drawn, sixfold }
        }
        Err(refusal) => Water { drawn: Drawn::refused(refusal), sixfold: 0 },
    }
}

/// Shows in lent slices a way from a start to an end, both corners given by record number: document 02, "Can she get
/// through?". The refusals are those of [`check`], then 8, 18, 19 and 20; only 20 writes, and the work slice alone.
pub fn way(
    survey: Survey,
    clearance: f32,
    start: u32,
    end: u32,
    way: &mut [u16],
    work: &mut [u16],
) -> Passage {
    convoy(survey, &[clearance], start, end, way, work)
}

/// Shows in lent slices, as [`way`] does, one way that is wet at all of the clearances of a convoy together: document 02, "A
/// convoy on one way". The refusals are those of [`check`], then 21, 8, 18, 19 and 20; only 20 writes, and the work slice alone.
pub fn convoy(
    survey: Survey,
    clearances: &[f32],
    start: u32,
    end: u32,
    way: &mut [u16],
    work: &mut [u16],
) -> Passage {
    match way::show(survey, clearances, [start, end], way, work) {
        Ok(corners) => Passage { number: 0, corners: corners as u32 },
        Err(refusal) => Passage { number: refusal.number(), corners: 0 },
    }
}
