//! Enquiries about plain edges, and what the plain edges say.

use drawing::{enquire, Edge, End};
use surveys::plain::{self, Plain};
use surveys::Survey;

use crate::tables::tables;

/// Asks about an edge that some cell has, or none.
pub fn ask(survey: &Survey, edge: plain::Edge) -> Result<Edge, u32> {
    let low = edge.low().map(u32::from);
    enquire(tables(survey), survey.clearance, edge.axis as u32, low, u32::from(edge.length))
}

/// The answer that is due.
pub fn plain_answer(plain: &Plain, edge: plain::Edge) -> Result<Edge, u32> {
    if !plain.edges.contains(&edge) {
        Err(11)
    } else if !plain.is_odd(edge) {
        Ok(Edge::Even)
    } else {
        let number = plain.point(edge);
        let place = plain.place(plain.carriers[number]);
        let wet_end = if plain.is_wet(edge.low()) { End::Lower } else { End::Upper };
        Ok(Edge::Crossing { number: number as u32, place, wet_end })
    }
}
