//! Basins as distance functions: above 0 in the water, below 0 in the walls and above the water, 0 on the surface. Away from the surface they are about the
//! distance to it.
//!
//! x runs downstream, y across, z up. The functions use only operations that give the same number on every machine.

/// A place: x, y, z.
type Place = [f64; 3];

/// Half of the box: the line along the middle of a basin.
const MIDDLE: f64 = 512.0;

/// The water's surface is no wall, and a hull needs no clearance from it: depths below it count so many times.
const OPEN: f64 = 8.0;

/// A lock chamber with the upper gate open and the lower gate shut: the upper sill and its breast wall, recesses for both gates in the side walls, and
/// mitred lower gates that point upstream.
pub fn lock_chamber([x, y, z]: Place) -> f64 {
    let aside = (y - MIDDLE).abs();
    let to_gate = 0.93 * (880.0 + 0.4 * aside - x);
    let upper_recess = block([x, aside, z], [0.0, 0.0, 0.0], [228.0, 260.0, 2_000.0]);
    let lower_recess = block([x, aside, z], [668.0, 0.0, 0.0], [2_000.0, 260.0, 2_000.0]);
    let width = (196.0 - aside).max(upper_recess).max(lower_recess);
    let bed = (z - 124.0).min(blend(x - 316.0, z - 636.0, 48.0));
    width.min(bed).min(x - 60.0).min(to_gate).min(OPEN * (964.0 - z))
}

/// A weir pool at high water: a bowl above the weir, the drowned crest, and a scour hole below it.
pub fn weir_pool([x, y, z]: Place) -> f64 {
    // The lowest part of the bed from bank to bank: down into the bowl, up to the crest, down into the hole, up again.
    let bowl = -470.0 * eased(x, 20.0, 260.0) + 300.0 * eased(x, 310.0, 560.0);
    let hole = -470.0 * eased(x, 580.0, 740.0) + 640.0 * eased(x, 790.0, 1_004.0);
    let bottom = BANK + bowl + hole;
    let width = 490.0 - 150.0 * (eased(x, 380.0, 570.0) - eased(x, 590.0, 800.0));
    let aside = (y - MIDDLE) * (y - MIDDLE) / (width * width);
    let bed = bottom + (BANK - bottom) * (aside + aside * aside) / 2.0;
    (0.75 * (z - bed)).min(OPEN * (708.0 - z))
}

/// The weir pool after dredging: a channel goes through the drowned crest.
pub fn dredged_pool([x, y, z]: Place) -> f64 {
    let channel = block([x, y, z], [420.0, MIDDLE - 70.0, 550.0], [760.0, MIDDLE + 70.0, 2_000.0]);
    weir_pool([x, y, z]).max(channel.min(OPEN * (708.0 - z)))
}

/// The height of the banks of the weir pool.
const BANK: f64 = 790.0;

/// From 0 to 1 while a coordinate goes from one place to another, without a kink.
fn eased(coordinate: f64, from: f64, to: f64) -> f64 {
    let part = ((coordinate - from) / (to - from)).clamp(0.0, 1.0);
    part * part * (3.0 - 2.0 * part)
}

/// The distance to the sides of a block; inside it the distance to the nearest.
fn block(place: Place, low: Place, high: Place) -> f64 {
    let beyond = [0, 1, 2].map(|axis| (low[axis] - place[axis]).max(place[axis] - high[axis]));
    let outside = beyond.iter().map(|far| far.max(0.0) * far.max(0.0)).sum::<f64>().sqrt();
    let inside = beyond.into_iter().fold(f64::NEG_INFINITY, f64::max).min(0.0);
    -outside - inside
}

/// The space of both, with a hollow of about this radius where they meet.
fn blend(one: f64, other: f64, radius: f64) -> f64 {
    let near = (radius - (one - other).abs()).max(0.0);
    one.max(other) + near * near / (4.0 * radius)
}

#[cfg(test)]
mod tests {
    use super::*;

    fn assert_wet(shape: fn(Place) -> f64, wet: &[Place], dry: &[Place]) {
        assert!(wet.iter().all(|&place| shape(place) > 0.0), "{:?}", wet.iter().map(|&place| shape(place)));
        assert!(dry.iter().all(|&place| shape(place) < 0.0), "{:?}", dry.iter().map(|&place| shape(place)));
    }

    #[test]
    fn the_chamber_has_sill_recesses_and_gates() {
        let wet = [
            [500.0, 512.0, 200.0],
            [150.0, 512.0, 700.0],
            [150.0, 270.0, 700.0],
            [800.0, 270.0, 300.0],
            [930.0, 300.0, 500.0],
        ];
        let dry = [
            [150.0, 512.0, 600.0],
            [500.0, 270.0, 500.0],
            [930.0, 512.0, 500.0],
            [500.0, 512.0, 970.0],
            [500.0, 512.0, 100.0],
        ];
        assert_wet(lock_chamber, &wet, &dry);
    }

    #[test]
    fn the_pool_has_bowl_crest_and_hole() {
        let wet = [[290.0, 512.0, 340.0], [570.0, 512.0, 640.0], [765.0, 512.0, 170.0]];
        let dry =
            [[290.0, 512.0, 300.0], [570.0, 512.0, 600.0], [765.0, 512.0, 130.0], [290.0, 512.0, 720.0]];
        assert_wet(weir_pool, &wet, &dry);
        assert!(weir_pool([300.0, 100.0, 700.0]) > 0.0 && weir_pool([570.0, 100.0, 700.0]) < 0.0);
    }

    #[test]
    fn a_channel_goes_through_the_crest() {
        let wet = [[570.0, 512.0, 600.0], [570.0, 512.0, 560.0], [570.0, 450.0, 560.0]];
        let dry = [[570.0, 512.0, 540.0], [570.0, 430.0, 560.0], [570.0, 512.0, 720.0]];
        assert_wet(dredged_pool, &wet, &dry);
        assert_wet(weir_pool, &[], &wet);
        for place in [[290.0, 512.0, 340.0], [765.0, 512.0, 170.0], [300.0, 100.0, 700.0]] {
            assert_eq!(dredged_pool(place), weir_pool(place));
        }
    }

    #[test]
    fn distances_to_a_block() {
        let far = |place| block(place, [0.0; 3], [8.0, 10.0, 12.0]);
        assert_eq!(far([2.0, 5.0, 5.0]), 2.0);
        assert_eq!(far([11.0, 14.0, 5.0]), -5.0);
        assert_eq!(far([8.0, 5.0, 5.0]), 0.0);
    }

    #[test]
    fn a_blend_is_larger_only_near_the_meeting() {
        assert_eq!(blend(3.0, -9.0, 4.0), 3.0);
        assert_eq!(blend(2.0, 2.0, 4.0), 3.0);
    }
}
