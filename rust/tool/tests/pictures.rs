//! Pictures, read back.

mod common;

use std::collections::BTreeSet;

use clearance_tool::picture::{file, HEIGHT, WIDTH};
use clearance_tool::view::{Block, Camera};
use common::{printed, root, run, text, Place};
use surveys::random::Random;

/// The most bytes of a picture in the project's documents.
const MOST_BYTES: usize = 200 * 1024;

/// A picture: three bytes a pixel, rows from the top.
struct Picture {
    width: usize,
    height: usize,
    pixels: Vec<u8>,
}

impl Picture {
    fn pixel(&self, column: usize, row: usize) -> [u8; 3] {
        let at = 3 * (row * self.width + column);
        self.pixels[at..at + 3].try_into().expect("three bytes")
    }
}

/// Reads a PNG file of eight bits each of red, green and blue.
fn picture(file: &[u8]) -> Picture {
    let mut reader = png::Decoder::new(file).read_info().expect("a PNG file");
    let mut pixels = vec![0; reader.output_buffer_size()];
    let png::OutputInfo { width, height, color_type, bit_depth, .. } =
        reader.next_frame(&mut pixels).expect("a picture");
    assert_eq!((color_type, bit_depth), (png::ColorType::Rgb, png::BitDepth::Eight));
    Picture { width: width as usize, height: height as usize, pixels }
}

fn rendered(place: &Place, directory: &str, options: &[&str]) -> Picture {
    let out = place.below("picture.png");
    assert_eq!(printed(&[&["render", directory, &out], options].concat()), "");
    picture(&std::fs::read(out).expect("the picture"))
}

fn twin() -> String {
    text(&root().join("examples/twin")).to_owned()
}

#[test]
fn pixels_read_back() {
    let mut random = Random::new(2);
    let noise: Vec<u8> = (0..3 * 17 * 9).map(|_| random.below(256) as u8).collect();
    let ramp: Vec<u8> = (0..3 * 17 * 9).map(|at| (at % 51 + at / 51 * 5) as u8).collect();
    for pixels in [noise, ramp] {
        let read = picture(&file(17, 9, &pixels));
        assert_eq!((read.width, read.height), (17, 9));
        assert_eq!(read.pixels, pixels);
    }
}

#[test]
fn the_surface_is_where_the_camera_sees_it() {
    let place = Place::new("camera");
    let background = [250, 251, 252];
    for (turn, tilt) in [(30.0, 35.0), (-60.0, 20.0), (200.0, 50.0)] {
        let options = ["--turn", &format!("{turn}"), "--tilt", &format!("{tilt}")];
        let picture = rendered(&place, &twin(), &options);
        assert_eq!((picture.width, picture.height), (WIDTH, HEIGHT));
        assert_eq!(picture.pixel(2, 2), background);
        let camera = Camera::new(turn, tilt, [WIDTH as f64, HEIGHT as f64], Block::BOX);
        // The middle of the body, and a place in the box far from it.
        let inside = camera.seen([256.0, 480.0, 480.0]).map(|coordinate| coordinate as usize);
        let outside = camera.seen([800.0, 500.0, 700.0]).map(|coordinate| coordinate as usize);
        let [red, _, blue] = picture.pixel(inside[0], inside[1]);
        assert!(blue > red, "the surface is blue");
        assert_eq!(picture.pixel(outside[0], outside[1]), background);
    }
}

#[test]
fn every_option_changes_the_picture() {
    let place = Place::new("options");
    let directory = place.example("weir-pool");
    let options: [&[&str]; 7] =
        [&[], &["--turn", "31"], &["--tilt", "36"], &["--edges"], &["--cells"], &["--inside"], &["--near"]];
    let pictures: BTreeSet<Vec<u8>> =
        options.iter().map(|options| rendered(&place, &directory, options).pixels).collect();
    assert_eq!(pictures.len(), options.len());
}

#[test]
fn svg_has_a_polygon_for_each_triangle() {
    let place = Place::new("svg");
    let out = place.below("picture.svg");
    printed(&["render", &twin(), &out, "--edges"]);
    let svg = std::fs::read_to_string(&out).expect("the picture");
    assert!(svg.starts_with("<svg xmlns=\"http://www.w3.org/2000/svg\" "));
    assert!(svg.ends_with("</svg>\n"));
    assert_eq!(svg.matches("<polygon ").count(), 4);
    assert!(svg.lines().all(|line| line.starts_with('<') && line.ends_with('>')));
    // One side of the body is cut from the sides towards the viewer, and only a veil is left of these.
    printed(&["render", &twin(), &out, "--inside"]);
    let inside = std::fs::read_to_string(&out).expect("the picture");
    assert_eq!(inside.matches("<polygon ").count(), 4);
    let veils = inside.matches("fill-opacity").count();
    assert!((1..4).contains(&veils), "{veils}");
}

#[test]
fn an_empty_surface_leaves_the_box() {
    let place = Place::new("empty");
    let directory = place.example("all-dry");
    for options in [&[][..], &["--near"], &["--inside"]] {
        let picture = rendered(&place, &directory, options);
        let drawn = picture.pixels.chunks(3).filter(|pixel| *pixel != [250, 251, 252]).count();
        assert!((1_000..WIDTH * HEIGHT / 10).contains(&drawn), "{drawn}");
    }
}

#[test]
fn degrees_must_be_numbers() {
    let place = Place::new("degrees");
    let out = place.below("picture.png");
    for degrees in ["steep", "nan", "inf"] {
        let ran = run(&["render", &twin(), &out, "--tilt", degrees]);
        assert_eq!(ran.status, 2);
        assert!(ran.errors.contains("--tilt"), "{}", ran.errors);
    }
    assert!(!place.path.join("picture.png").exists());
}

/// The commands in the README of the pictures make the pictures beside it.
#[test]
fn the_projects_pictures_are_what_the_tool_makes() {
    let place = Place::new("documents");
    let pictures = root().join("docs/pictures");
    let commands = std::fs::read_to_string(pictures.join("README.md")).expect("the README of the pictures");
    let mut count = 0;
    for command in commands.lines().filter_map(|line| line.strip_prefix("    clearance render ")) {
        let mut words = command.split(' ');
        let directory = root().join(words.next().expect("a directory"));
        let kept = root().join(words.next().expect("a picture"));
        let made = rendered(&place, text(&directory), &words.collect::<Vec<_>>());
        let file = std::fs::read(&kept).expect("the picture");
        assert!(file.len() < MOST_BYTES, "{} bytes", file.len());
        // Sines may differ in their last bits between machines.
        let differ = picture(&file)
            .pixels
            .iter()
            .zip(&made.pixels)
            .filter(|(one, other)| one.abs_diff(**other) > 2)
            .count();
        assert!(differ < made.pixels.len() / 1_000, "{}: {differ} bytes differ", kept.display());
        count += 1;
    }
    assert_eq!(count, std::fs::read_dir(pictures).expect("the pictures").count() - 1);
}
