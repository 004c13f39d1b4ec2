//! A mesh as a PNG picture.

use clearance::Mesh;

use crate::raster::Raster;
use crate::shading::{faces, mixed, outlines, Colour, Face, Light};
use crate::view::{dot, Block, Camera, Vector};

/// The size of a picture in pixels.
pub const WIDTH: usize = 800;
/// See [`WIDTH`].
pub const HEIGHT: usize = 800;

/// The colours around the surface.
pub const BACKGROUND: Colour = [0.980, 0.984, 0.988];
/// Edges of the box.
pub const BOX_LINE: Colour = [0.62, 0.67, 0.71];
/// Edges of the box that are seen through it.
pub const BOX_LINE_BEHIND: Colour = [0.84, 0.87, 0.89];
/// Edges of triangles.
pub const TRIANGLE_LINE: Colour = [0.09, 0.20, 0.29];
/// What is left of the near sides when one looks inside.
pub const VEIL: Colour = [0.35, 0.60, 0.72];
/// How much of [`VEIL`] is seen.
pub const VEIL_PART: f64 = 0.10;

/// How wide lines are, in pixels.
pub const LINE: f64 = 1.2;

/// Lines of equal height, this many between the lowest and the highest point.
const CONTOURS: f64 = 12.0;

/// Further than any place of the box.
const FAR_BACK: f64 = 10_000.0;

/// Left-out sides whose normals differ by more than this (a cosine) have a line between them.
const OUTLINED: f64 = 0.8;

/// Sides whose normals are opposite (a cosine) are folded on each other; there is no crease.
const FOLD: f64 = -0.9;

/// Triangles that are thinner than this have no outline: their normals say little of the surface.
const SLIVER: f64 = 3.0;

/// What a picture shows.
#[derive(Clone, Copy, Debug)]
pub struct Style {
    /// Degrees by which the box is turned about the z axis.
    pub turn: f64,
    /// Degrees above the horizon from which it is looked at.
    pub tilt: f64,
    /// Whether the edges of triangles are drawn.
    pub edges: bool,
    /// Whether the sides towards the viewer are left out, to look at the surface from the wet side.
    pub inside: bool,
    /// Whether the surface fills the picture, and not the box.
    pub near: bool,
}

/// A mesh and how it is looked at.
pub struct Scene {
    /// The surface.
    pub mesh: Mesh,
    /// More lines to show, by their ends.
    pub lines: Vec<[Vector; 2]>,
    /// How to show it.
    pub style: Style,
}

impl Scene {
    /// The camera of a picture.
    pub fn camera(&self) -> Camera {
        let Style { turn, tilt, near, .. } = self.style;
        let places = self.mesh.points.iter().map(|place| place.map(f64::from));
        let block = Block::around(places).filter(|_| near).unwrap_or(Block::BOX);
        Camera::new(turn, tilt, [WIDTH, HEIGHT].map(|pixels| pixels as f64), block)
    }

    /// The faces in full sight, and those of which only a veil is left. Looking inside, a folded face may be a spot on the side that is left out; it
    /// goes to the far back, to be seen only where nothing else is.
    pub fn faces(&self) -> [Vec<Face>; 2] {
        let set_back = |face: Face| match self.style.inside && face.folded {
            true => {
                Face { seen: face.seen.map(|[right, down, near]| [right, down, near - FAR_BACK]), ..face }
            }
            false => face,
        };
        let faces = faces(&self.mesh, &self.camera()).into_iter();
        let (veils, shown): (Vec<Face>, Vec<Face>) =
            faces.partition(|face| self.style.inside && face.dry_side);
        [shown.into_iter().map(set_back).collect(), veils]
    }

    /// Looking inside: the lines around the sides that are left out, and the creases of these.
    pub fn outlines(&self, shown: &[Face], veils: &[Face]) -> Vec<[Vector; 2]> {
        let clear = |face: &&Face| !face.folded && face.thickness > SLIVER;
        let faces: Vec<Face> = shown.iter().chain(veils).filter(clear).copied().collect();
        outlines(&faces, |one, other| {
            let turn = dot(one.normal, other.normal);
            let at_border = one.dry_side != other.dry_side || (one.dry_side && turn < OUTLINED);
            self.style.inside && at_border && turn > FOLD
        })
    }
}

/// The PNG file of a mesh.
pub fn png(scene: &Scene) -> Vec<u8> {
    let camera = scene.camera();
    let light = Light::new(&camera);
    let mut raster = Raster::new(WIDTH, HEIGHT, BACKGROUND);
    let [shown, veils] = scene.faces();
    shown.iter().for_each(|face| put_face(&mut raster, face, &light));
    if scene.style.edges {
        shown.iter().for_each(|face| put_edges(&mut raster, face));
    }
    put_box(&mut raster, &camera, true);
    let lines = scene.lines.iter().map(|ends| ends.map(|end| camera.seen(end)));
    lines.for_each(|ends| raster.line(ends, LINE, BOX_LINE, 0.4));
    let outlines = scene.outlines(&shown, &veils);
    veils.iter().for_each(|face| raster.veil(face.seen, VEIL, VEIL_PART));
    outlines.into_iter().for_each(|ends| raster.line(ends, LINE, TRIANGLE_LINE, 0.45));
    put_box(&mut raster, &camera, false);
    file(WIDTH, HEIGHT, &raster.pixels())
}

/// The PNG file of a picture: three bytes a pixel, rows from the top.
pub fn file(width: usize, height: usize, pixels: &[u8]) -> Vec<u8> {
    let mut file = Vec::new();
    let mut encoder = png::Encoder::new(&mut file, width as u32, height as u32);
    encoder.set_color(png::ColorType::Rgb);
    encoder.set_depth(png::BitDepth::Eight);
    encoder.set_compression(png::Compression::Best);
    encoder.set_adaptive_filter(png::AdaptiveFilterType::Adaptive);
    let written = encoder.write_header().and_then(|mut writer| writer.write_image_data(pixels));
    written.expect("three bytes a pixel, and a vector takes them all");
    file
}

fn put_face(raster: &mut Raster, face: &Face, light: &Light) {
    let contours = Contours::new(face);
    raster.triangle(face.seen, |weights| {
        let mean = |parts: [f64; 3]| (0..3).map(|corner| weights[corner] * parts[corner]).sum::<f64>();
        let normal = [0, 1, 2].map(|axis| mean(face.normals.map(|normal| normal[axis])));
        let height = mean(face.heights);
        let colour = light.colour(height, normal);
        if contours.at(height) {
            mixed(colour, TRIANGLE_LINE, 0.22)
        } else {
            colour
        }
    });
}

fn put_edges(raster: &mut Raster, face: &Face) {
    let [a, b, c] = face.seen;
    [[a, b], [b, c], [c, a]].into_iter().for_each(|ends| raster.line(ends, LINE, TRIANGLE_LINE, 0.8));
}

fn put_box(raster: &mut Raster, camera: &Camera, behind: bool) {
    let colour = if behind { BOX_LINE_BEHIND } else { BOX_LINE };
    for (ends, _) in camera.box_edges().into_iter().filter(|&(_, seen_through)| seen_through == behind) {
        raster.line(ends.map(|end| camera.seen(end)), LINE, colour, 0.7);
    }
}

/// The lines of equal height on a face.
struct Contours {
    /// Half the width of a line, as a part of the height between two lines.
    half_width: f64,
}

impl Contours {
    fn new(face: &Face) -> Contours {
        let [a, b, c] = face.seen;
        let [low, middle, high] = face.heights;
        let (one, other) = ([b[0] - a[0], b[1] - a[1], middle - low], [c[0] - a[0], c[1] - a[1], high - low]);
        // How fast the height changes to the right and downwards in the picture.
        let area = one[0] * other[1] - one[1] * other[0];
        let slope = [one[2] * other[1] - one[1] * other[2], one[0] * other[2] - one[2] * other[0]]
            .map(|part| part / area);
        Contours { half_width: CONTOURS * slope[0].hypot(slope[1]) * LINE / 2.0 }
    }

    /// Whether a place of this height is on a line. None is on a face that is nearly level, where a line would be an area, or nearly edgewise.
    fn at(&self, height: f64) -> bool {
        let steps = height * CONTOURS;
        let clear = (0.01..0.2).contains(&self.half_width);
        clear && (steps - steps.round()).abs() < self.half_width
    }
}
