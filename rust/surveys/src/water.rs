//! The space inside a closed drawing, as document 02 has it ("Water in the pool") but by another way than its
//! determinants, and from no reference point. Nothing here is fast.

/// Six times the space inside, in cubic sixteenths of a unit. Under each triangle an upright prism goes down to the bottom
/// of the box; it counts as positive if the triangle turns counter-clockwise seen from above, else as negative. Six times
/// its space is twice the area of its shadow by the heights of its three corners together.
pub fn sixfold(points: &[f32], triangles: &[u32]) -> i128 {
    let corner = |point: &u32| {
        let place = &points[3 * *point as usize..][..3];
        [place[0], place[1], place[2]].map(sixteenths)
    };
    let prism = |triangle: &[u32]| {
        let [a, b, c] = [&triangle[0], &triangle[1], &triangle[2]].map(corner);
        let shadow = (b[0] - a[0]) * (c[1] - a[1]) - (c[0] - a[0]) * (b[1] - a[1]);
        shadow * (a[2] + b[2] + c[2])
    };
    triangles.chunks_exact(3).map(prism).sum()
}

/// A coordinate of the box taken down to a whole sixteenth.
pub fn sixteenths(coordinate: f32) -> i128 {
    let whole = coordinate.floor();
    let rest = coordinate - whole;
    16 * whole as i128 + (1..16u8).filter(|&count| f32::from(count) / 16.0 <= rest).count() as i128
}

#[cfg(test)]
mod tests {
    use super::*;

    #[test]
    fn coordinates_are_taken_down() {
        let cases = [(0.0, 0), (0.0625, 1), (0.99, 15), (1.0, 16), (511.97, 8_191), (1_024.0, 16_384)];
        for (coordinate, count) in cases {
            assert_eq!(sixteenths(coordinate), count, "{coordinate}");
        }
        assert_eq!(sixteenths(f32::from_bits(1)), 0);
        assert_eq!([0.0625f32.next_down(), 0.0625f32.next_up()].map(sixteenths), [0, 1]);
        assert_eq!(sixteenths(1_024.0f32.next_down()), 16_383);
    }

    /// Three edges of 1, 2 and 3 units from one corner: the space is a sixth of their product.
    #[test]
    fn a_tetrahedron_has_a_sixth_of_the_product_of_its_edges() {
        let points = [5.0, 5.0, 5.0, 6.0, 5.0, 5.0, 5.0, 7.0, 5.0, 5.0, 5.0, 8.0];
        let triangles = [0, 2, 1, 0, 3, 2, 0, 1, 3, 1, 2, 3];
        assert_eq!(sixfold(&points, &triangles), 6 * 4_096);
        let turned = triangles.map(|point| [1, 0, 2, 3][point as usize]);
        assert_eq!(sixfold(&points, &turned), -6 * 4_096);
    }
}
