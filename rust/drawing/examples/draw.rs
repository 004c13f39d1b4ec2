//! Prints the listing of the survey in a directory: the files `cells`, `corners`, `amendments` and `clearance`, as the documents' drawing program reads
//! them.

use std::path::Path;

fn read(directory: &Path, name: &str) -> Vec<u8> {
    std::fs::read(directory.join(name)).unwrap_or_default()
}

fn main() {
    let directory = std::env::args().nth(1).unwrap_or_else(|| ".".into());
    let directory = Path::new(&directory);
    // A clearance of another length is refusal 8, in its order, as a clearance that is not a number is.
    let clearance = read(directory, "clearance").try_into().map_or(f32::NAN, f32::from_le_bytes);
    let [cells, corners, amendments] = ["cells", "corners", "amendments"].map(|name| read(directory, name));
    let survey = drawing::Survey { cells: &cells, corners: &corners, amendments: &amendments };
    match drawing::draw_to_vec(survey, clearance) {
        Ok(drawn) => print!("{}", listing(&drawn.points, &drawn.triangles)),
        Err(number) => println!("refused {number}"),
    }
}

fn listing(points: &[f32], triangles: &[u32]) -> String {
    let mut text = format!("{} {}\n", points.len() / 3, triangles.len() / 3);
    for p in points.chunks(3) {
        let [x, y, z] = [p[0], p[1], p[2]].map(f32::to_bits);
        text += &format!("v {x:08x} {y:08x} {z:08x}\n");
    }
    for t in triangles.chunks(3) {
        text += &format!("t {} {} {}\n", t[0], t[1], t[2]);
    }
    text
}
