//! What the comparisons of drawings, of drawings by calendar and of volumes share.

use std::fmt::Debug;

use clearance::{Counts, Refused};
use drawing::Drawn;
use surveys::lent::{bits, Slices};

/// Counts, and 0 or the number of a refusal, as the independent drawing returns them.
pub fn drawn(number: u32, Counts { points, triangles }: Counts) -> Drawn {
    Drawn { number, points, triangles }
}

/// A refusal as the independent drawing returns it.
pub fn refused(Refused { refusal, counts }: Refused) -> Drawn {
    drawn(refusal.number(), counts)
}

/// Two calls returned the same and left the same bits in their slices.
pub fn assert_same_slices<R: PartialEq + Debug>(one: &Slices<R>, other: &Slices<R>, what: &str) {
    assert_eq!(one.0, other.0, "{what}: result");
    assert!(bits(&one.1) == bits(&other.1), "{what}: points");
    assert_eq!(one.2, other.2, "{what}: triangles");
}
