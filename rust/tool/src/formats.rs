//! A mesh as text: document 01's listing, OBJ and PLY.

use std::iter::once;

use clearance::Mesh;

/// The listing of document 01's drawing program.
pub fn listing(mesh: &Mesh) -> String {
    let counts = format!("{} {}", mesh.points.len(), mesh.triangles.len());
    let points = mesh.points.iter().map(|place| {
        let [x, y, z] = place.map(f32::to_bits);
        format!("v {x:08x} {y:08x} {z:08x}")
    });
    let triangles = mesh.triangles.iter().map(|[a, b, c]| format!("t {a} {b} {c}"));
    text(once(counts).chain(points).chain(triangles))
}

/// Wavefront OBJ. Numbers of points start at 1; each coordinate is the shortest decimal number that reads back as the same binary32.
pub fn obj(mesh: &Mesh) -> String {
    let points = mesh.points.iter().map(|[x, y, z]| format!("v {x} {y} {z}"));
    let from_one = mesh.triangles.iter().map(|triangle| triangle.map(|point| point + 1));
    text(points.chain(from_one.map(|[a, b, c]| format!("f {a} {b} {c}"))))
}

/// PLY, ascii 1.0. Coordinates as in [`obj`].
pub fn ply(mesh: &Mesh) -> String {
    let header = format!(
        "ply\nformat ascii 1.0\nelement vertex {}\nproperty float x\nproperty float y\nproperty float z\n\
         element face {}\nproperty list uchar int vertex_indices\nend_header",
        mesh.points.len(),
        mesh.triangles.len()
    );
    let points = mesh.points.iter().map(|[x, y, z]| format!("{x} {y} {z}"));
    let triangles = mesh.triangles.iter().map(|[a, b, c]| format!("3 {a} {b} {c}"));
    text(once(header).chain(points).chain(triangles))
}

/// Every line with its line feed.
fn text(lines: impl Iterator<Item = String>) -> String {
    lines.map(|line| line + "\n").collect()
}
