//! Slices lent to calls that draw, compiled and independent. A module of its own, since volumes are compared without it.

use clearance::{Counts, Refused};
use drawing::Drawn;
use surveys::lent::{lend, Slices};

use crate::comparing::{drawn, refused};

/// Lends slices of these lengths to a compiled call that draws. Only what it counts may be touched.
pub fn compiled(
    room: [usize; 2],
    what: &str,
    call: impl FnOnce(&mut [f32], &mut [u32]) -> Result<Counts, Refused>,
) -> Slices<Drawn> {
    lent_to(room, what, |floats, numbers| {
        call(floats, numbers).map_or_else(refused, |counts| drawn(0, counts))
    })
}

/// The same for a call of the independent drawing.
pub fn uncompiled(
    room: [usize; 2],
    what: &str,
    call: impl FnOnce(&mut [f32], &mut [u32]) -> Drawn,
) -> Slices<Drawn> {
    lent_to(room, what, call)
}

/// Lends slices to a call of either kind.
fn lent_to(
    room: [usize; 2],
    what: &str,
    call: impl FnOnce(&mut [f32], &mut [u32]) -> Drawn,
) -> Slices<Drawn> {
    lend(room[0], room[1], what, |floats, numbers| {
        let drawn = call(floats, numbers);
        (drawn, drawn.written())
    })
}
