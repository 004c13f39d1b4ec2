//! The points and triangles of the surveys in `document` that are drawn, reckoned by the rules.

/// The points of one split with only the centre wet, so far from it.
pub(crate) fn centre_points(far: f32) -> Vec<[f32; 3]> {
    points_around(512.0, [512.0 - far, 512.0 + far])
}

/// The points half-way to the six corners next to one that has this coordinate on each axis and is 1 away from them.
pub(crate) fn points_close_to(middle: f32) -> Vec<[f32; 3]> {
    points_around(middle, [middle - 0.5, middle + 0.5])
}

/// The points of one split with the centre at 1,048,576 and the rest at −1. t is 2⁻²⁰ − 2⁻⁴⁰, rounded once, so that the
/// way from a dry end is 2⁻¹¹ − 2⁻³¹; from 1,024 down it is rounded to 2⁻¹¹.
pub(crate) fn far_points() -> Vec<[f32; 3]> {
    points_around(512.0, [1.0 / 2_048.0 - 1.0 / 2_147_483_648.0, 1_024.0 - 1.0 / 2_048.0])
}

/// The points below and above a corner on each axis, where eight leaves of one size meet.
fn points_around(middle: f32, [below, above]: [f32; 2]) -> Vec<[f32; 3]> {
    vec![
        [below, middle, middle],
        [above, middle, middle],
        [middle, below, middle],
        [middle, above, middle],
        [middle, middle, below],
        [middle, middle, above],
    ]
}

/// The triangles around a corner where eight leaves of one size meet, all else being dry.
pub(crate) fn centre_triangles() -> Vec<[u32; 3]> {
    vec![[0, 4, 2], [1, 2, 4], [0, 3, 4], [1, 4, 3], [0, 2, 5], [1, 5, 2], [0, 5, 3], [1, 3, 5]]
}

/// Six points around (256,256,256), and four around (512,512,256), where no edge goes up x or y.
pub(crate) fn opposite_points() -> Vec<[f32; 3]> {
    vec![
        [128.0, 256.0, 256.0],
        [384.0, 256.0, 256.0],
        [384.0, 512.0, 256.0],
        [256.0, 128.0, 256.0],
        [256.0, 384.0, 256.0],
        [512.0, 384.0, 256.0],
        [256.0, 256.0, 128.0],
        [512.0, 512.0, 128.0],
        [256.0, 256.0, 384.0],
        [512.0, 512.0, 384.0],
    ]
}

/// By leaf: two of size 512, each with the twins 7 and 9; then those of size 256, of which 12 and 16 have the face and
/// two triangles each, one for each of its steps.
pub(crate) fn opposite_triangles() -> Vec<[u32; 3]> {
    vec![
        [5, 7, 9],
        [2, 9, 7],
        [0, 6, 3],
        [1, 3, 6],
        [0, 4, 6],
        [1, 6, 4],
        [2, 7, 5],
        [0, 3, 8],
        [1, 8, 3],
        [0, 8, 4],
        [1, 4, 8],
        [2, 5, 9],
    ]
}

/// Every point is a quarter of its edge from the dry end.
pub(crate) fn quarter_points() -> Vec<[f32; 3]> {
    vec![[64.0, 512.0, 512.0], [448.0, 512.0, 512.0], [256.0, 320.0, 512.0], [256.0, 512.0, 320.0]]
}

/// The bits are those of document 01's listing.
pub(crate) fn twin_points() -> Vec<[f32; 3]> {
    let bits: [[u32; 3]; 4] = [
        [0x43000000, 0x44000000, 0x44000000],
        [0x43c00000, 0x44000000, 0x44000000],
        [0x43800000, 0x43c00000, 0x44000000],
        [0x43800000, 0x44000000, 0x43c00000],
    ];
    bits.map(|place| place.map(f32::from_bits)).to_vec()
}

pub(crate) fn twin_triangles() -> Vec<[u32; 3]> {
    vec![[0, 1, 3], [0, 2, 1], [0, 3, 2], [1, 2, 3]]
}

pub(crate) fn open_points() -> Vec<[f32; 3]> {
    vec![[448.0, 128.0, 256.0], [512.0, 64.0, 256.0], [512.0, 192.0, 256.0], [512.0, 128.0, 192.0]]
}

pub(crate) fn open_triangles() -> Vec<[u32; 3]> {
    vec![[1, 3, 2], [0, 1, 2], [0, 3, 1], [0, 2, 3]]
}

/// With wet 1 every point is in the middle of its edge. With wet 2 it is a third from the dry end, reckoned
/// by hand from t = 0x3eaaaaab.
pub(crate) fn line_points(wet: f32) -> Vec<[f32; 3]> {
    let moving = if wet == 1.0 {
        [32.0, 96.0, 192.0, 384.0, 448.0, 480.0, 448.0, 480.0]
    } else {
        let bits: [u32; 8] =
            [0x41aaaaab, 0x42d55555, 0x432aaaab, 0x43d55555, 0x43d55555, 0x43eaaaab, 0x43d55555, 0x43eaaaab];
        bits.map(f32::from_bits)
    };
    vec![
        [moving[0], 512.0, 512.0],
        [moving[1], 512.0, 512.0],
        [moving[2], 512.0, 512.0],
        [moving[3], 512.0, 512.0],
        [256.0, moving[4], 512.0],
        [64.0, moving[5], 512.0],
        [256.0, 512.0, moving[6]],
        [64.0, 512.0, moving[7]],
    ]
}

pub(crate) fn line_triangles() -> Vec<[u32; 3]> {
    vec![[0, 1, 7], [2, 3, 6], [0, 5, 1], [2, 4, 3], [3, 4, 6], [2, 6, 4], [0, 7, 5], [1, 5, 7]]
}
