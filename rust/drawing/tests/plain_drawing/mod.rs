//! A second drawing, straight from the words of document 01 and the geometry of each face. It looks at all
//! leaves for each leaf, and shares nothing with the drawing under test.

use std::collections::{BTreeMap, BTreeSet};

use surveys::plain::{Edge, Plain};
use surveys::survey::Cube;

/// A face of a leaf, as another leaf or the same one has it on a side.
pub struct Face {
    /// The axis that the face stands across.
    pub axis: usize,
    /// +1 if the outside of the leaf is further up on that axis, −1 if further down.
    pub outward: i32,
    /// The lowest corner.
    low: [u16; 3],
    size: u16,
}

/// A drawing of a lawful survey, whatever stands on the outer faces.
pub struct PlainDrawing {
    /// x, y and z of each point.
    pub points: Vec<f32>,
    /// The points of each loop.
    pub loops: Vec<Vec<usize>>,
    /// The three point numbers of each triangle.
    pub triangles: Vec<u32>,
}

/// Draws a lawful survey.
pub fn draw(plain: &Plain) -> PlainDrawing {
    let points = plain.carriers.iter().flat_map(|&edge| plain.place(edge)).collect();
    let loops: Vec<Vec<usize>> = plain.leaves.iter().flat_map(|&leaf| leaf_loops(plain, leaf)).collect();
    let fan = |points: &Vec<usize>| {
        let triangle = |k: usize| [points[0], points[k], points[k + 1]].map(|point| point as u32);
        (1..points.len() - 1).flat_map(triangle).collect::<Vec<u32>>()
    };
    PlainDrawing { points, triangles: loops.iter().flat_map(fan).collect(), loops }
}

fn leaf_loops(plain: &Plain, leaf: Cube) -> Vec<Vec<usize>> {
    let steps: BTreeMap<usize, usize> =
        small_faces(plain, leaf).iter().flat_map(|face| face_steps(plain, face)).collect();
    let mut waiting: BTreeSet<usize> = steps.iter().flat_map(|(&from, &to)| [from, to]).collect();
    let mut loops = Vec::new();
    while let Some(start) = waiting.pop_first() {
        let mut points = vec![start];
        let mut point = start;
        loop {
            let twin = || plain.twin(point).expect("an open end has a twin");
            point = steps.get(&point).copied().unwrap_or_else(twin);
            if point == start {
                break;
            }
            assert!(waiting.remove(&point), "each point is on one loop");
            points.push(point);
        }
        loops.push(points);
    }
    loops
}

fn small_faces(plain: &Plain, leaf: Cube) -> Vec<Face> {
    let sides = (0..3).flat_map(|axis| [(axis, -1), (axis, 1)]);
    sides
        .flat_map(|(axis, outward)| {
            let own = face_of(leaf, axis, outward);
            let touching = |finer: &&Cube| {
                let across = face_of(**finer, axis, -outward);
                let within = |on: usize| {
                    let (low, high) = (own.low[on], own.low[on] + own.size);
                    on == axis || (low <= across.low[on] && across.low[on] + across.size <= high)
                };
                across.size < own.size && across.low[axis] == own.low[axis] && (0..3).all(within)
            };
            let finer = plain.leaves.iter().filter(touching);
            let faces: Vec<Face> =
                finer.map(|&finer| Face { outward, ..face_of(finer, axis, -outward) }).collect();
            if faces.is_empty() {
                vec![own]
            } else {
                faces
            }
        })
        .collect()
}

/// The small faces with two odd edges that each leaf has, with the step in each.
pub fn single_steps(plain: &Plain) -> Vec<(Face, (usize, usize))> {
    let faces = plain.leaves.iter().flat_map(|&leaf| small_faces(plain, leaf));
    faces
        .filter_map(|face| match face_steps(plain, &face)[..] {
            [step] => Some((face, step)),
            _ => None,
        })
        .collect()
}

/// Whether some small face has four odd edges.
pub fn has_saddle(plain: &Plain) -> bool {
    let mut faces = plain.leaves.iter().flat_map(|&leaf| small_faces(plain, leaf));
    faces.any(|face| face_edges(&face).into_iter().all(|edge| plain.is_odd(edge)))
}

impl Face {
    /// The four edges in their order round the face, from the lowest corner on and along the axis after its own first.
    pub fn edges_round(&self) -> [Edge; 4] {
        let [first, first_raised, second, second_raised] = face_edges(self);
        [first, second_raised, first_raised, second]
    }
}

fn face_of(leaf: Cube, axis: usize, outward: i32) -> Face {
    let mut low = leaf.low;
    if outward > 0 {
        low[axis] += leaf.size;
    }
    Face { axis, outward, low, size: leaf.size }
}

/// The steps of a face, each turned so that the wet corners it cuts off lie to its right.
fn face_steps(plain: &Plain, face: &Face) -> Vec<(usize, usize)> {
    let odd: Vec<Edge> = face_edges(face).into_iter().filter(|&edge| plain.is_odd(edge)).collect();
    let wet_end = |edge: Edge| if plain.is_wet(edge.low()) { edge.low() } else { edge.high() };
    let cut = |one: Edge, other: Edge| {
        let right = is_right(face, one, other, wet_end(one));
        let (from, to) = if right { (one, other) } else { (other, one) };
        (plain.point(from), plain.point(to))
    };
    match odd[..] {
        [] => vec![],
        [one, other] => vec![cut(one, other)],
        _ => {
            let pairs = odd.iter().flat_map(|&one| odd.iter().map(move |&other| (one, other)));
            let same_corner = |&(one, other): &(Edge, Edge)| one < other && wet_end(one) == wet_end(other);
            pairs.filter(same_corner).map(|(one, other)| cut(one, other)).collect()
        }
    }
}

fn face_edges(face: &Face) -> [Edge; 4] {
    let (first, second) = ((face.axis + 1) % 3, (face.axis + 2) % 3);
    let raised = |axis: usize| {
        let mut low = face.low;
        low[axis] += face.size;
        low
    };
    [(first, face.low), (first, raised(second)), (second, face.low), (second, raised(first))]
        .map(|(axis, low)| Edge::new(axis, low, face.size))
}

/// Whether a corner lies to the right of the line between the middles of two edges, seen from outside: that
/// is on the side of the cross product of the line's direction with the outward direction.
fn is_right(face: &Face, from: Edge, to: Edge, corner: [u16; 3]) -> bool {
    let twice_middle = |edge: Edge| {
        let (low, high) = (edge.low(), edge.high());
        [0, 1, 2].map(|axis| i32::from(low[axis]) + i32::from(high[axis]))
    };
    let (start, end) = (twice_middle(from), twice_middle(to));
    let direction = [0, 1, 2].map(|axis| end[axis] - start[axis]);
    let mut outward = [0; 3];
    outward[face.axis] = face.outward;
    let right = [0, 1, 2].map(|axis| {
        let (first, second) = ((axis + 1) % 3, (axis + 2) % 3);
        direction[first] * outward[second] - direction[second] * outward[first]
    });
    (0..3).map(|axis| right[axis] * (2 * i32::from(corner[axis]) - start[axis])).sum::<i32>() > 0
}
