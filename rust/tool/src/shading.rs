//! How bright and of which colour the surface looks.

use std::collections::HashMap;

use clearance::Mesh;

use crate::view::{cross, dot, plus, unit, way, Camera, Vector};

/// Red, green and blue, each from 0 to 1.
pub type Colour = [f64; 3];

/// The colours of the lowest to the highest points, in equal steps.
const TINTS: [Colour; 4] = [[0.10, 0.31, 0.49], [0.20, 0.52, 0.66], [0.49, 0.76, 0.78], [0.74, 0.90, 0.91]];

/// What is left of a colour where no light falls, and in full light. Shade is bluish.
const SHADE: Colour = [0.54, 0.62, 0.72];
const SUNLIT: Colour = [1.06, 1.05, 1.04];

/// Triangles whose normals differ by less than this (a cosine) are shaded as one smooth surface; others meet in a crease.
const CREASE: f64 = 0.8;

/// A triangle is folded back if its normal turns by more than this (a cosine) from the triangles around it.
const FOLDED: f64 = -0.2;

/// A triangle of the surface as the viewer has it.
#[derive(Clone, Copy, Debug)]
pub struct Face {
    /// The numbers of its points.
    pub points: [u32; 3],
    /// How thick it is: its height over its longest edge.
    pub thickness: f64,
    /// Its normal, which faces the dry side.
    pub normal: Vector,
    /// Where its corners are in the picture, and how near.
    pub seen: [Vector; 3],
    /// The heights of its corners, from 0 for the lowest point to 1 for the highest.
    pub heights: [f64; 3],
    /// The normals of the surface at its corners, on the side that the viewer sees.
    pub normals: [Vector; 3],
    /// Whether the viewer sees its dry side.
    pub dry_side: bool,
    /// Whether it is folded back on the surface around it. Where coarse cells meet fine ones, the fan of a loop may fold. The surface closes all the
    /// same, but the fold would show as a spot of the other side.
    pub folded: bool,
}

/// The triangles of a mesh, less those without an area.
pub fn faces(mesh: &Mesh, camera: &Camera) -> Vec<Face> {
    let places: Vec<Vector> = mesh.points.iter().map(|place| place.map(f64::from)).collect();
    let lowest = places.iter().map(|place| place[2]).fold(f64::INFINITY, f64::min);
    let highest = places.iter().map(|place| place[2]).fold(f64::NEG_INFINITY, f64::max);
    let height =
        |place: Vector| if lowest < highest { (place[2] - lowest) / (highest - lowest) } else { 0.5 };
    let normals = Normals::new(mesh, &places);
    let face = |triangle: &[u32; 3]| {
        let corners = triangle.map(|point| places[point as usize]);
        let own = unit(area(corners))?;
        let dry_side = dot(own, camera.towards) > 0.0;
        let folded = normals.is_folded(triangle, own);
        let sign = if dry_side != folded { 1.0 } else { -1.0 };
        let smooth = if folded { own.map(|part| -part) } else { own };
        Some(Face {
            points: *triangle,
            thickness: thickness(corners),
            normal: own,
            seen: corners.map(|place| camera.seen(place)),
            heights: corners.map(height),
            normals: triangle.map(|point| normals.at(point, smooth).map(|part| sign * part)),
            dry_side,
            folded,
        })
    };
    mesh.triangles.iter().filter_map(face).collect()
}

/// From point to point around a triangle.
fn runs([a, b, c]: &[u32; 3]) -> [[u32; 2]; 3] {
    [[*a, *b], [*b, *c], [*c, *a]]
}

/// Twice the area of a triangle along its normal, which faces the dry side.
fn area([a, b, c]: [Vector; 3]) -> Vector {
    cross(way(a, b), way(a, c))
}

/// The height of a triangle over its longest edge.
fn thickness([a, b, c]: [Vector; 3]) -> f64 {
    let length = |vector: Vector| dot(vector, vector).sqrt();
    length(area([a, b, c])) / [way(a, b), way(b, c), way(c, a)].map(length).into_iter().fold(0.0, f64::max)
}

/// The triangles around points and beside edges, each as twice its area along its normal.
struct Normals {
    around: HashMap<u32, Vec<Vector>>,
    beside: HashMap<[u32; 2], Vector>,
}

impl Normals {
    fn new(mesh: &Mesh, places: &[Vector]) -> Normals {
        let mut normals = Normals { around: HashMap::new(), beside: HashMap::new() };
        for triangle in &mesh.triangles {
            let area = area(triangle.map(|point| places[point as usize]));
            triangle.iter().for_each(|&point| normals.around.entry(point).or_default().push(area));
            normals.beside.extend(runs(triangle).map(|run| (run, area)));
        }
        normals
    }

    /// Whether at least two neighbours of a triangle with the normal `own` face the other way, or all that meet its points do on the whole.
    fn is_folded(&self, triangle: &[u32; 3], own: Vector) -> bool {
        let turned_away = |[from, to]: &[u32; 2]| {
            let neighbour = self.beside.get(&[*to, *from]).and_then(|&area| unit(area));
            neighbour.is_some_and(|normal| dot(normal, own) < FOLDED)
        };
        let whole = triangle
            .iter()
            .flat_map(|point| &self.around[point])
            .fold([0.0; 3], |sum, area| plus(sum, *area));
        let turned_whole = unit(whole).is_some_and(|whole| dot(whole, own) < FOLDED);
        turned_whole || runs(triangle).iter().filter(|run| turned_away(run)).count() >= 2
    }

    /// The normal at a point of a triangle with the normal `own`: the mean over the triangles there that go on smoothly.
    fn at(&self, point: u32, own: Vector) -> Vector {
        let smooth = |area: &&Vector| unit(**area).is_some_and(|normal| dot(normal, own) > CREASE);
        let areas = self.around[&point].iter().filter(smooth);
        unit(areas.fold([0.0; 3], |sum, area| plus(sum, *area))).unwrap_or(own)
    }
}

/// The edges between faces that `parts` says are parted, by their ends in the picture.
pub fn outlines(faces: &[Face], parts: impl Fn(&Face, &Face) -> bool) -> Vec<[Vector; 2]> {
    let sides = |face: &Face| runs(&face.points).into_iter().zip([[0, 1], [1, 2], [2, 0]]);
    let beside: HashMap<[u32; 2], &Face> =
        faces.iter().flat_map(|face| runs(&face.points).map(|run| (run, face))).collect();
    let lines = faces.iter().flat_map(|face| {
        let parted = sides(face).filter(|&([from, to], _)| {
            // Each edge once: from the lower number on.
            from < to && beside.get(&[to, from]).is_some_and(|other| parts(face, other))
        });
        parted.map(|(_, ends)| ends.map(|end| face.seen[end])).collect::<Vec<_>>()
    });
    lines.collect()
}

/// A light above the viewer's left shoulder, and some from the sky.
#[derive(Clone, Copy, Debug)]
pub struct Light {
    towards: Vector,
}

impl Light {
    /// The light that goes with a camera.
    pub fn new(camera: &Camera) -> Light {
        let towards = [0, 1, 2].map(|axis| 0.6 * camera.towards[axis] - 0.7 * camera.right[axis]);
        let raised = [towards[0], towards[1], towards[2] + 0.8];
        Light { towards: unit(raised).unwrap_or(camera.towards) }
    }

    /// The colour of the surface at a height (0 to 1) where it has this normal.
    pub fn colour(&self, height: f64, normal: Vector) -> Colour {
        let direct = dot(normal, self.towards).max(0.0);
        let sky = 0.5 + 0.5 * normal[2];
        let filter = mixed(SHADE, SUNLIT, 0.8 * direct + 0.2 * sky);
        let tint = tint(height);
        [0, 1, 2].map(|channel| (tint[channel] * filter[channel]).min(1.0))
    }
}

/// The colour that stands for a height from 0 to 1.
fn tint(height: f64) -> Colour {
    let step = height.clamp(0.0, 1.0) * (TINTS.len() - 1) as f64;
    let below = (step as usize).min(TINTS.len() - 2);
    mixed(TINTS[below], TINTS[below + 1], step - below as f64)
}

/// So much of the second colour over the first.
pub fn mixed(first: Colour, second: Colour, part: f64) -> Colour {
    [0, 1, 2].map(|channel| first[channel] + part * (second[channel] - first[channel]))
}

#[cfg(test)]
mod tests {
    use super::*;
    use crate::view::Block;

    /// The corner of a block with another triangle beside its top: points 0, 1, 2 and 3 lie in the top.
    fn crease() -> Mesh {
        let points = vec![[0., 0., 9.], [9., 0., 9.], [0., 9., 9.], [9., 9., 8.], [0., 0., 0.]];
        Mesh { points, triangles: vec![[0, 1, 2], [1, 3, 2], [0, 4, 1]] }
    }

    #[test]
    fn normals_are_smooth_up_to_a_crease() {
        let camera = Camera::new(0.0, 45.0, [100.0; 2], Block::BOX);
        let faces = faces(&crease(), &camera);
        assert!(faces.iter().all(|face| face.dry_side));
        assert_eq!(faces[0].normals[0], [0.0, 0.0, 1.0]);
        assert_eq!(faces[0].normals[1], faces[1].normals[0]);
        assert!(faces[0].normals[1][0] > 0.0);
        assert_eq!(faces[2].normals[0], [0.0, -1.0, 0.0]);
    }

    #[test]
    fn the_other_side_has_the_other_normal() {
        let below = Camera::new(180.0, -45.0, [100.0; 2], Block::BOX);
        let face = faces(&crease(), &below)[0];
        assert!(!face.dry_side);
        assert_eq!(face.normals[0], [0.0, 0.0, -1.0]);
    }

    #[test]
    fn a_triangle_without_area_is_left_out() {
        let mut mesh = crease();
        mesh.points[1] = mesh.points[0];
        assert_eq!(faces(&mesh, &Camera::new(0.0, 45.0, [100.0; 2], Block::BOX)).len(), 1);
    }

    #[test]
    fn a_fold_is_seen_and_shaded_as_what_is_around_it() {
        // A flat fan around point 0 whose middle triangle goes back.
        let points = vec![[0., 0., 0.], [9., 0., 0.], [9., 6., 0.], [9., 3., 0.], [6., 9., 0.]];
        let mesh = Mesh { points, triangles: vec![[0, 1, 2], [0, 2, 3], [0, 3, 4]] };
        let faces = faces(&mesh, &Camera::new(0.0, 45.0, [100.0; 2], Block::BOX));
        assert_eq!(faces.iter().map(|face| face.folded).collect::<Vec<_>>(), [false, true, false]);
        assert_eq!(faces[1].normals, [[0.0, 0.0, 1.0]; 3]);
    }

    #[test]
    fn an_outline_is_between_parted_faces() {
        let faces = faces(&crease(), &Camera::new(0.0, 45.0, [100.0; 2], Block::BOX));
        let lines = outlines(&faces, |one, other| dot(one.normal, other.normal) < 0.5);
        assert_eq!(lines, [[faces[0].seen[0], faces[0].seen[1]]]);
        assert_eq!(outlines(&faces, |_, _| true).len(), 2);
    }

    #[test]
    fn higher_is_lighter() {
        let light = Light::new(&Camera::new(30.0, 35.0, [100.0; 2], Block::BOX));
        let brightness = |height| light.colour(height, [0.0, 0.0, 1.0]).iter().sum::<f64>();
        assert!(brightness(0.0) < brightness(0.5) && brightness(0.5) < brightness(1.0));
        assert_eq!(tint(1.0), TINTS[3]);
    }
}
