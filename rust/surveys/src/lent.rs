//! What stands in slices before they are lent to a drawing: patterns that no drawing writes, each element with its own, so that a touched element
//! shows. The floats are NaNs, quiet and signalling, of both signs and with many payloads; no comparison of floats tells these apart, so they are
//! compared by their [`bits`]. [`lend`] puts guards around the slices too.

use std::fmt::Debug;
use std::iter::repeat_with;
use std::ops::Range;

use crate::random::Random;

/// The most corners that a survey has.
const MOST_CORNERS: usize = 4_872;

/// More than any point's number: an edge that carries a point starts at one of the corners, on one of three axes.
const NO_POINT: u32 = 3 * MOST_CORNERS as u32;

/// So many elements stand before each slice that [`lend`] lends, and behind it.
const GUARD: usize = 5;

/// What a call returned, and the point and the triangle slice afterwards.
pub type Slices<R> = (R, Vec<f32>, Vec<u32>);

/// Lends slices of these lengths to a call, which also tells how many elements of each it has written, from the front. Stops if any other
/// element was touched.
pub fn lend<R>(
    points: usize,
    triangles: usize,
    what: &str,
    call: impl FnOnce(&mut [f32], &mut [u32]) -> (R, [usize; 2]),
) -> Slices<R> {
    let (mut floats, mut numbers) = (floats(points + 2 * GUARD), self::numbers(triangles + 2 * GUARD));
    let before = [bits(&floats), numbers.clone()];
    let (lent_floats, lent_numbers) = (GUARD..GUARD + points, GUARD..GUARD + triangles);
    let (result, written) = call(&mut floats[lent_floats.clone()], &mut numbers[lent_numbers.clone()]);
    assert_untouched(&before[0], &bits(&floats), GUARD..GUARD + written[0], what);
    assert_untouched(&before[1], &numbers, GUARD..GUARD + written[1], what);
    (result, floats[lent_floats].to_vec(), numbers[lent_numbers].to_vec())
}

/// What a call returned, and the way and the work slice afterwards.
pub type WaySlices<R> = (R, Vec<u16>, Vec<u16>);

/// Lends slices of 16-bit numbers, as [`lend`] does. With a seed they hold numbers of corners and of steps, which a call must not be led astray by.
pub fn lend_for_way<R>(
    [way_room, work_room]: [usize; 2],
    seed: Option<u64>,
    what: &str,
    call: impl FnOnce(&mut [u16], &mut [u16]) -> (R, [usize; 2]),
) -> WaySlices<R> {
    let contents = |room: usize, by: u64| short_numbers(room + 2 * GUARD, seed.map(|seed| 2 * seed + by));
    let (mut way, mut work) = (contents(way_room, 0), contents(work_room, 1));
    let before = [way.clone(), work.clone()];
    let [lent_way, lent_work] = [way_room, work_room].map(|room| GUARD..GUARD + room);
    let (result, written) = call(&mut way[lent_way.clone()], &mut work[lent_work.clone()]);
    assert_untouched(&before[0], &way, GUARD..GUARD + written[0], what);
    assert_untouched(&before[1], &work, GUARD..GUARD + written[1], what);
    (result, way[lent_way].to_vec(), work[lent_work].to_vec())
}

/// 16-bit numbers to lend: of no corner, or with a seed any up to the most that a call writes.
pub fn short_numbers(count: usize, seed: Option<u64>) -> Vec<u16> {
    let of_no_corner = |at: usize| mixed(at as u32) as u16 | 1 << 15;
    match seed.map(Random::new) {
        None => (0..count).map(of_no_corner).collect(),
        Some(mut random) => repeat_with(|| random.below(MOST_CORNERS + 1) as u16).take(count).collect(),
    }
}

/// Only elements in this range may have changed.
fn assert_untouched<T: PartialEq + Debug>(before: &[T], after: &[T], written: Range<usize>, what: &str) {
    assert_eq!(before[..written.start], after[..written.start], "{what}: elements before the slice");
    assert_eq!(before[written.end..], after[written.end..], "{what}: elements past the last");
}

/// Floats to lend.
pub fn floats(count: usize) -> Vec<f32> {
    (0..count).map(|at| f32::from_bits(not_a_number(at as u32))).collect()
}

/// Numbers to lend.
pub fn numbers(count: usize) -> Vec<u32> {
    (0..count).map(|at| mixed(at as u32).max(NO_POINT)).collect()
}

/// Floats by their bits.
pub fn bits(floats: &[f32]) -> Vec<u32> {
    floats.iter().map(|float| float.to_bits()).collect()
}

/// The bits of a NaN: any sign and any fraction but 0, whose highest bit says that it is quiet.
fn not_a_number(at: u32) -> u32 {
    mixed(at) | 0x7f80_0001
}

/// A number that differs from its neighbours in all its bits.
fn mixed(at: u32) -> u32 {
    (at + 1).wrapping_mul(0x9e37_79b1)
}

#[cfg(test)]
mod tests {
    use std::collections::BTreeSet;

    use super::*;

    #[test]
    fn floats_are_nans_of_every_kind() {
        let lent = floats(64);
        assert!(lent.iter().all(|float| float.is_nan()));
        let kinds: BTreeSet<u32> = bits(&lent).iter().map(|bits| bits & 0x8040_0000).collect();
        assert_eq!(kinds.len(), 4, "quiet and signalling, of both signs");
        let payloads: BTreeSet<u32> = bits(&lent).iter().map(|bits| bits & 0x003f_ffff).collect();
        assert!(payloads.len() > 60, "{}", payloads.len());
    }

    #[test]
    fn numbers_are_of_no_point() {
        let lent = numbers(100_000);
        assert!(lent.iter().all(|&number| number >= 14_616));
        assert!(lent.iter().collect::<BTreeSet<_>>().len() > 90_000);
    }

    #[test]
    fn short_numbers_are_of_no_corner_or_of_any() {
        let lent = short_numbers(5_000, None);
        assert!(lent.iter().all(|&number| number >= 4_873));
        assert!(lent.iter().collect::<BTreeSet<_>>().len() > 4_500);
        let any = short_numbers(100_000, Some(1));
        assert_eq!((any.iter().min(), any.iter().max()), (Some(&0), Some(&4_872)));
    }

    /// Lends slices of 7 and 9 elements to a call that writes so many of each, and says that it has written 3 and 8.
    fn written_for_way(way: usize, work: usize) -> WaySlices<()> {
        lend_for_way([7, 9], None, "test", |lent_way, lent_work| {
            lent_way[..way].fill(0);
            lent_work[..work].fill(0);
            ((), [3, 8])
        })
    }

    #[test]
    fn what_is_written_for_a_way_is_given_back() {
        let ((), way, work) = written_for_way(3, 8);
        assert_eq!((way.len(), work.len()), (7, 9));
        assert!(way[..3] == [0; 3] && work[..8] == [0; 8] && !way[3..].contains(&0) && work[8] != 0);
    }

    #[test]
    #[should_panic(expected = "test: elements past the last")]
    fn a_corner_too_many_is_seen() {
        written_for_way(4, 8);
    }

    #[test]
    #[should_panic(expected = "test: elements past the last")]
    fn a_number_of_steps_too_many_is_seen() {
        written_for_way(3, 9);
    }

    /// Lends slices of 7 and 8 elements to a call that writes so many of each, and says that it has written 3 and 6.
    fn written(points: usize, triangles: usize) -> Slices<()> {
        lend(7, 8, "test", |floats, numbers| {
            floats[..points].fill(0.0);
            numbers[..triangles].fill(0);
            ((), [3, 6])
        })
    }

    #[test]
    fn what_is_written_is_given_back() {
        let ((), points, triangles) = written(3, 6);
        assert_eq!((points.len(), triangles.len()), (7, 8));
        assert_eq!((&points[..3], &triangles[..6]), (&[0.0; 3][..], &[0; 6][..]));
        assert!(points[3..].iter().all(|float| float.is_nan()) && !triangles[6..].contains(&0));
    }

    #[test]
    #[should_panic(expected = "test: elements past the last")]
    fn a_point_too_many_is_seen() {
        written(4, 6);
    }

    #[test]
    #[should_panic(expected = "test: elements past the last")]
    fn a_triangle_too_many_is_seen() {
        written(3, 7);
    }
}
