//! Which record holds at each corner: document 02, "Resounding a few corners".

use crate::refusal::Refusal;
use crate::survey::{corner_at, Corner};

/// An amendment's claim to a corner. Claims to one corner rise with their strength: by day, then by the amendment's number.
#[derive(Clone, Copy, PartialEq, Eq, PartialOrd, Ord)]
struct Claim {
    /// The corner's record.
    corner: usize,
    day: u16,
    amendment: usize,
}

/// Check 15, then the corners in force: the strongest claim to each corner beats the corner table, unless that is of a
/// higher day.
pub(crate) fn amend(corners: &mut [Corner], amendments: &[Corner]) -> Result<(), Refusal> {
    for strongest in strongest_claims(corners, amendments)? {
        let own = &mut corners[strongest.corner];
        if strongest.day >= own.day {
            *own = amendments[strongest.amendment];
        }
    }
    Ok(())
}

/// The strongest claim to each corner that has any.
fn strongest_claims(corners: &[Corner], amendments: &[Corner]) -> Result<Vec<Claim>, Refusal> {
    let mut claims = Vec::with_capacity(amendments.len());
    for (amendment, &Corner { place, day, .. }) in amendments.iter().enumerate() {
        let corner = corner_at(corners, place).ok_or(Refusal::AmendmentPlace)?;
        claims.push(Claim { corner, day, amendment });
    }
    claims.sort_unstable();
    let by_corner = claims.chunk_by(|one, other| one.corner == other.corner);
    Ok(by_corner.filter_map(|claims| claims.last().copied()).collect())
}
