//! Where the box is looked at from: parallel lines of sight, z upwards.

/// A place, a direction or a normal: x, y, z.
pub type Vector = [f64; 3];

/// The size of the box.
const SIDE: f64 = 1_024.0;

/// The part of the picture's width and height that is filled.
const FILLED: f64 = 0.94;

/// A block of space by its lowest and its highest corner.
#[derive(Clone, Copy, Debug, PartialEq)]
pub struct Block {
    /// The lowest x, y and z.
    pub low: Vector,
    /// The highest x, y and z.
    pub high: Vector,
}

impl Block {
    /// The box of document 01.
    pub const BOX: Block = Block { low: [0.0; 3], high: [SIDE; 3] };

    /// The least block around some places; `None` if there are none.
    pub fn around(places: impl IntoIterator<Item = Vector>) -> Option<Block> {
        let joined = |one: Block, other: Block| Block {
            low: [0, 1, 2].map(|axis| one.low[axis].min(other.low[axis])),
            high: [0, 1, 2].map(|axis| one.high[axis].max(other.high[axis])),
        };
        places.into_iter().map(|place| Block { low: place, high: place }).reduce(joined)
    }
}

/// A camera that has a block in the picture.
#[derive(Clone, Copy, Debug)]
pub struct Camera {
    /// To the right in the picture.
    pub right: Vector,
    /// Upwards in the picture.
    pub up: Vector,
    /// Towards the viewer.
    pub towards: Vector,
    scale: f64,
    middle: [f64; 2],
    centre: Vector,
}

impl Camera {
    /// A camera turned about the z axis by so many degrees, from looking along y, and tilted by so many degrees above the horizon. The block fills a picture
    /// of this width and height.
    pub fn new(turn: f64, tilt: f64, [width, height]: [f64; 2], block: Block) -> Camera {
        let (turn_sine, turn_cosine) = turn.to_radians().sin_cos();
        let (tilt_sine, tilt_cosine) = tilt.to_radians().sin_cos();
        let mut camera = Camera {
            right: [turn_cosine, turn_sine, 0.0],
            up: [-tilt_sine * turn_sine, tilt_sine * turn_cosine, tilt_cosine],
            towards: [tilt_cosine * turn_sine, -tilt_cosine * turn_cosine, tilt_sine],
            scale: 1.0,
            middle: [width / 2.0, height / 2.0],
            centre: [0, 1, 2].map(|axis| (block.low[axis] + block.high[axis]) / 2.0),
        };
        let sides = way(block.low, block.high);
        let reach = |direction: Vector| dot(direction.map(f64::abs), sides).max(1.0);
        camera.scale = FILLED * (width / reach(camera.right)).min(height / reach(camera.up));
        camera
    }

    /// Where a place is in the picture: to the right, downwards, and how near.
    pub fn seen(&self, place: Vector) -> Vector {
        let from_centre = way(self.centre, place);
        [
            self.middle[0] + self.scale * dot(from_centre, self.right),
            self.middle[1] - self.scale * dot(from_centre, self.up),
            self.scale * dot(from_centre, self.towards),
        ]
    }

    /// The ends of the twelve edges of the box, each edge with whether the viewer sees it through the box.
    pub fn box_edges(&self) -> Vec<([Vector; 2], bool)> {
        let corner = |place: usize| [0, 1, 2].map(|axis| if place >> axis & 1 == 1 { SIDE } else { 0.0 });
        let furthest =
            (0..8).min_by(|&one, &other| self.seen(corner(one))[2].total_cmp(&self.seen(corner(other))[2]));
        let edges = (0..8usize).flat_map(|low| (0..3).map(move |axis| [low, low | 1 << axis]));
        edges
            .filter(|[low, high]| low != high)
            .map(|ends| (ends.map(corner), furthest.is_some_and(|far| ends.contains(&far))))
            .collect()
    }
}

/// The sum of the products.
pub fn dot(one: Vector, other: Vector) -> f64 {
    (0..3).map(|axis| one[axis] * other[axis]).sum()
}

/// The vector product.
pub fn cross(one: Vector, other: Vector) -> Vector {
    [0, 1, 2].map(|axis| {
        let (next, last) = ((axis + 1) % 3, (axis + 2) % 3);
        one[next] * other[last] - one[last] * other[next]
    })
}

/// The sum.
pub fn plus(one: Vector, other: Vector) -> Vector {
    [0, 1, 2].map(|axis| one[axis] + other[axis])
}

/// The way from one place to another.
pub fn way(from: Vector, to: Vector) -> Vector {
    [0, 1, 2].map(|axis| to[axis] - from[axis])
}

/// The same direction at length 1; nothing for no direction.
pub fn unit(vector: Vector) -> Option<Vector> {
    let length = dot(vector, vector).sqrt();
    (length > 0.0).then(|| vector.map(|part| part / length))
}

#[cfg(test)]
mod tests {
    use super::*;

    #[test]
    fn the_box_fits_and_z_points_up() {
        for (turn, tilt) in [(0.0, 0.0), (30.0, 35.0), (-200.0, 60.0), (45.0, 90.0)] {
            let camera = Camera::new(turn, tilt, [300.0, 200.0], Block::BOX);
            let corners =
                camera.box_edges().into_iter().flat_map(|(ends, _)| ends).map(|end| camera.seen(end));
            let fits = |[x, y, _]: Vector| (0.0..=300.0).contains(&x) && (0.0..=200.0).contains(&y);
            assert!(corners.into_iter().all(fits), "{turn} {tilt}");
            assert!(camera.up[2] >= -1e-12);
            let off = way(cross(camera.right, camera.up), camera.towards);
            assert!(dot(off, off) < 1e-24);
        }
    }

    #[test]
    fn a_block_is_in_the_middle() {
        let places = [[10.0, 20.0, 30.0], [50.0, 0.0, 40.0]];
        let block = Block::around(places).expect("two places");
        assert_eq!(block, Block { low: [10.0, 0.0, 30.0], high: [50.0, 20.0, 40.0] });
        let camera = Camera::new(0.0, 0.0, [300.0, 200.0], block);
        assert_eq!(camera.seen([30.0, 10.0, 35.0]), [150.0, 100.0, 0.0]);
        let [left, right] = [10.0, 50.0].map(|x| camera.seen([x, 0.0, 35.0])[0]);
        assert!((right - left - FILLED * 300.0).abs() < 1e-9);
        assert_eq!(Block::around([]), None);
    }

    #[test]
    fn three_edges_are_behind() {
        let edges = Camera::new(30.0, 35.0, [300.0, 200.0], Block::BOX).box_edges();
        assert_eq!(edges.len(), 12);
        assert_eq!(edges.iter().filter(|(_, behind)| *behind).count(), 3);
    }
}
