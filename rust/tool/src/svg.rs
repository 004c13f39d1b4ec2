//! A mesh as an SVG picture: polygons from the furthest to the nearest.

use std::fmt::Write;

use crate::picture::{
    Scene, BACKGROUND, BOX_LINE, BOX_LINE_BEHIND, HEIGHT, LINE, TRIANGLE_LINE, VEIL, VEIL_PART, WIDTH,
};
use crate::shading::{Colour, Face, Light};
use crate::view::{Camera, Vector};

/// The SVG file of a mesh.
pub fn svg(scene: &Scene) -> String {
    let camera = scene.camera();
    let light = Light::new(&camera);
    let [mut shown, mut veils] = scene.faces();
    let nearness = |face: &Face| face.seen.iter().map(|corner| corner[2]).sum::<f64>();
    for faces in [&mut shown, &mut veils] {
        faces.sort_by(|one, other| nearness(one).total_cmp(&nearness(other)));
    }
    let mut text = format!("<svg xmlns=\"http://www.w3.org/2000/svg\" viewBox=\"0 0 {WIDTH} {HEIGHT}\">\n");
    line(
        &mut text,
        format_args!("<rect width=\"{WIDTH}\" height=\"{HEIGHT}\" fill=\"{}\"/>", hex(BACKGROUND)),
    );
    put_box(&mut text, &camera, true);
    let lines: Vec<[Vector; 2]> = scene.lines.iter().map(|ends| ends.map(|end| camera.seen(end))).collect();
    put_lines(&mut text, &lines, BOX_LINE, 0.4);
    text += "<g stroke-linejoin=\"round\">\n";
    shown.iter().for_each(|face| put_face(&mut text, face, scene.style.edges, &light));
    veils.iter().for_each(|face| put_veil(&mut text, face));
    text += "</g>\n";
    put_lines(&mut text, &scene.outlines(&shown, &veils), TRIANGLE_LINE, 0.45);
    put_box(&mut text, &camera, false);
    text + "</svg>\n"
}

/// A face in one colour. Its outline has the same colour, so that no gap shows between neighbours.
fn put_face(text: &mut String, face: &Face, edges: bool, light: &Light) {
    let corners = face.seen.map(place).join(" ");
    let mean = |parts: [f64; 3]| parts.iter().sum::<f64>() / 3.0;
    let normal = [0, 1, 2].map(|axis| mean(face.normals.map(|normal| normal[axis])));
    let fill = hex(light.colour(mean(face.heights), normal));
    let stroke = if edges { hex(TRIANGLE_LINE) } else { fill.clone() };
    line(
        text,
        format_args!(
            "<polygon points=\"{corners}\" fill=\"{fill}\" stroke=\"{stroke}\" stroke-width=\"{LINE}\"/>"
        ),
    );
}

fn put_veil(text: &mut String, face: &Face) {
    let (corners, veil, part) = (face.seen.map(place).join(" "), hex(VEIL), VEIL_PART / 2.0);
    line(text, format_args!("<polygon points=\"{corners}\" fill=\"{veil}\" fill-opacity=\"{part}\"/>"));
}

fn put_box(text: &mut String, camera: &Camera, behind: bool) {
    let edges = camera.box_edges().into_iter().filter(|&(_, seen_through)| seen_through == behind);
    let lines: Vec<[Vector; 2]> = edges.map(|(ends, _)| ends.map(|end| camera.seen(end))).collect();
    put_lines(text, &lines, if behind { BOX_LINE_BEHIND } else { BOX_LINE }, 1.0);
}

fn put_lines(text: &mut String, lines: &[[Vector; 2]], colour: Colour, part: f64) {
    let paths: String = lines.iter().map(|ends| format!("M{}", ends.map(place).join("L"))).collect();
    let stroke = hex(colour);
    line(text, format_args!("<path d=\"{paths}\" fill=\"none\" stroke=\"{stroke}\" stroke-opacity=\"{part}\" stroke-width=\"{LINE}\"/>"));
}

fn place(seen: Vector) -> String {
    format!("{:.1},{:.1}", seen[0], seen[1])
}

fn hex(colour: Colour) -> String {
    let [red, green, blue] = colour.map(|part| (255.0 * part).round() as u8);
    format!("#{red:02x}{green:02x}{blue:02x}")
}

fn line(text: &mut String, words: std::fmt::Arguments) {
    writeln!(text, "{words}").expect("a string takes every line");
}

#[cfg(test)]
mod tests {
    use super::*;
    use crate::picture::Style;
    use clearance::Mesh;

    #[test]
    fn the_nearest_face_comes_last() {
        let triangle = |height: f32| [[100.0, 100.0, height], [900.0, 100.0, height], [100.0, 900.0, height]];
        let style = Style { turn: 0.0, tilt: 90.0, edges: false, inside: false, near: false };
        // Seen from above, so that the higher is the nearer. Heights also give the colours.
        let polygons = |heights: [f32; 3]| {
            let points = heights.into_iter().flat_map(triangle).collect();
            let mesh = Mesh { points, triangles: vec![[0, 1, 2], [3, 4, 5], [6, 7, 8]] };
            let text = svg(&Scene { mesh, lines: Vec::new(), style });
            text.lines().filter(|line| line.starts_with("<polygon")).map(String::from).collect::<Vec<_>>()
        };
        let rising = polygons([100.0, 500.0, 900.0]);
        assert_eq!(rising.len(), 3);
        assert!(rising[0] != rising[1] && rising[1] != rising[2]);
        assert_eq!(polygons([900.0, 100.0, 500.0]), rising);
    }
}
