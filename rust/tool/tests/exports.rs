//! OBJ and PLY, read back.

mod common;

use std::str::FromStr;

use clearance::Mesh;
use common::{drawn, printed, survey, Place};

const EXAMPLES: [&str; 5] = ["twin", "lock-chamber", "hull-room", "dredged", "all-dry"];

fn numbers<N: FromStr, const COUNT: usize>(words: &str) -> [N; COUNT] {
    let read = |word: &str| word.parse().ok().unwrap_or_else(|| panic!("{word} is no number"));
    let list: Vec<N> = words.split(' ').map(read).collect();
    list.try_into().ok().unwrap_or_else(|| panic!("{words} are not {COUNT} numbers"))
}

fn from_obj(text: &str) -> Mesh {
    let mut mesh = Mesh::default();
    for line in text.lines() {
        match line.split_at(2) {
            ("v ", place) => mesh.points.push(numbers(place)),
            ("f ", points) => mesh.triangles.push(numbers::<u32, 3>(points).map(|point| point - 1)),
            _ => panic!("{line}"),
        }
    }
    mesh
}

fn from_ply(text: &str) -> Mesh {
    let (header, body) = text.split_once("end_header\n").expect("a header");
    let lines: Vec<&str> = header.lines().collect();
    let count = |line: usize, element: &str| -> usize {
        lines[line].strip_prefix(element).and_then(|count| count.parse().ok()).expect(element)
    };
    let (points, triangles) = (count(2, "element vertex "), count(6, "element face "));
    assert_eq!(lines[..2], ["ply", "format ascii 1.0"]);
    assert_eq!(lines[3..6], ["property float x", "property float y", "property float z"]);
    assert_eq!(lines[7..], ["property list uchar int vertex_indices"]);
    assert_eq!(body.lines().count(), points + triangles);
    let face = |line| {
        let [count, a, b, c] = numbers(line);
        assert_eq!(count, 3);
        [a, b, c]
    };
    Mesh {
        points: body.lines().take(points).map(numbers).collect(),
        triangles: body.lines().skip(points).map(face).collect(),
    }
}

#[test]
fn meshes_read_back_to_the_bit() {
    let place = Place::new("exports");
    let bits = |mesh: &Mesh| mesh.points.iter().map(|place| place.map(f32::to_bits)).collect::<Vec<_>>();
    for name in EXAMPLES {
        let directory = place.example(name);
        let mesh = drawn(&survey(&place.path.join(name)));
        let [obj, ply] = [from_obj(&printed(&["obj", &directory])), from_ply(&printed(&["ply", &directory]))];
        assert_eq!([bits(&obj), bits(&ply)], [bits(&mesh), bits(&mesh)], "{name}");
        assert_eq!([&obj.triangles, &ply.triangles], [&mesh.triangles, &mesh.triangles], "{name}");
    }
}

#[test]
fn a_refused_survey_gives_no_mesh() {
    let place = Place::new("no-mesh");
    let directory = place.example("refused-3");
    for command in ["obj", "ply"] {
        let ran = common::run(&[command, &directory]);
        assert_eq!((ran.status, ran.out.as_str()), (1, ""));
        assert!(ran.errors.starts_with("clearance: refused 3: "), "{}", ran.errors);
    }
}
