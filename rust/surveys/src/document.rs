//! The surveys of document 01, "Surveys to try", and a few small ones, with what is known of them. Where
//! document 02 changes what document 01 says of a survey, its request is named. The lists have those of
//! [`resounded`] too.
//!
//! Clearance 0, wet +1, dry −1 unless said.

use crate::expected::{
    centre_points, centre_triangles, far_points, line_points, line_triangles, open_points, open_triangles,
    opposite_points, opposite_triangles, points_close_to, quarter_points, twin_points, twin_triangles,
};
use crate::refusals::{self, OPEN_AT_BOX};
use crate::resounded;
use crate::survey::{cell_table, too_deep_table, Cube, Octree, BOX_SIZE};
use crate::Survey;

/// A sounding and a clearance, both zero: every pair of signs.
pub const ZEROS: [(f32, f32); 4] = [(0.0, 0.0), (-0.0, 0.0), (0.0, -0.0), (-0.0, -0.0)];

/// A survey with the whole of its drawing.
pub struct Drawn {
    /// What the survey shows. No other has this name.
    pub name: String,
    /// The survey.
    pub survey: Survey,
    /// x, y and z of each point.
    pub points: Vec<[f32; 3]>,
    /// The point numbers of each triangle.
    pub triangles: Vec<[u32; 3]>,
}

impl Drawn {
    pub(crate) fn new(name: &str, survey: Survey, points: Vec<[f32; 3]>, triangles: Vec<[u32; 3]>) -> Drawn {
        Drawn { name: name.to_string(), survey, points, triangles }
    }
}

/// A survey that a check decides with which the lent slices have nothing to do.
pub struct Checked {
    /// What the survey shows. No other has this name.
    pub name: String,
    /// The survey.
    pub survey: Survey,
    /// The refusal for drawing, or 0.
    pub refusal: u32,
}

impl Checked {
    pub(crate) fn new(name: &str, survey: Survey, refusal: u32) -> Checked {
        Checked { name: name.to_string(), survey, refusal }
    }

    /// The refusal for an enquiry about an edge of some cell, or 0: 12 is for drawing alone.
    pub fn for_enquiry(&self) -> u32 {
        match self.refusal {
            OPEN_AT_BOX => 0,
            refusal => refusal,
        }
    }

    /// The refusal of the survey by itself, or 0: the clearance is not looked at.
    pub fn by_itself(&self) -> u32 {
        refusals::by_itself(self.refusal)
    }
}

/// The middles of the box's six sides: lower and upper on x, then y, then z.
pub const FACE_CENTRES: [[u16; 3]; 6] =
    [[0, 512, 512], [1024, 512, 512], [512, 0, 512], [512, 1024, 512], [512, 512, 0], [512, 512, 1024]];

/// These records split; these places wet with this sounding, all others −1.
pub fn wet_at(splits: &[usize], wet: &[[u16; 3]], sounding: f32) -> Survey {
    Survey::new(&Octree::splitting(splits), |place| if wet.contains(&place) { sounding } else { -1.0 })
}

/// One leaf, only (0,0,0) wet: refused for drawing by document 02, request 3.
pub fn one_corner_wet() -> Survey {
    sounded(1.0)
}

/// One split, only the centre wet.
pub fn centre_wet() -> Survey {
    centre_sounded(1.0)
}

/// Records 0 and 1 split, all soundings alike. If all are wet, document 02, request 3, refuses them for drawing.
pub fn level(sounding: f32) -> Survey {
    Survey::new(&Octree::splitting(&[0, 1]), |_| sounding)
}

/// Records 0 and 1 split. The leaves from 256 to 512 on x and y that meet at z = 256 have two opposite wet corners in
/// that face. It lies inside the box, since document 02, request 3, wants a dry outside.
pub fn opposite_corners_wet() -> Survey {
    wet_at(&[0, 1], &[[256, 256, 256], [512, 512, 256]], 1.0)
}

/// Dry −1 at 0, wet 3 at 256, inside the box: the edge along x from (0,512,512) of length 256 is crossed at 64.
pub fn quarter_place() -> Survey {
    wet_at(&[0, 1], &[[256, 512, 512]], 3.0)
}

/// Dry −1 at 0, wet 3 at 256, on an edge of the box: refused for drawing by document 02, request 3, but the edge along
/// x from (0,0,0) of length 256 is still crossed at 64.
pub fn quarter_place_at_box() -> Survey {
    wet_at(&[0, 1], &[[256, 0, 0]], 3.0)
}

/// Sounding 0 at (0,0,0), of either sign, at a clearance of 0 of either sign: dry. So says document 02, request
/// 2; in document 01 it is wet.
pub fn awash(sounding: f32, clearance: f32) -> Survey {
    sounded(sounding).at(clearance)
}

/// One split, the centre wet, and the sounding of every other corner equal to the clearance, which may be a
/// zero of the other sign.
pub fn awash_around(wet: f32, sounding: f32, clearance: f32) -> Survey {
    let at = |place| if place == [512; 3] { wet } else { sounding };
    Survey::new(&Octree::splitting(&[0]), at).at(clearance)
}

/// One split, the centre wet, and the middle of one side of the box equal to the clearance.
fn awash_at(face_centre: [u16; 3]) -> Survey {
    Survey::new(&Octree::splitting(&[0]), |place| match place {
        [512, 512, 512] => 1.0,
        place if place == face_centre => 0.0,
        _ => -1.0,
    })
}

/// The twin survey: records 0 and 1 split, 46 corners, only (256,512,512) wet.
pub fn twin() -> Survey {
    wet_at(&[0, 1], &[[256, 512, 512]], 1.0)
}

/// One point inside a side of a leaf, on none of its edges, is open there: records 0, 1 and 10 split.
pub fn open_inside_side() -> Survey {
    wet_at(&[0, 1, 10], &[[512, 128, 256]], 1.0)
}

/// Two wet corners on one line, with even edges above and between: records 0, 1, 15 and 23 split, 84 corners.
/// With a wet sounding of 2 the place depends on the end that it is reckoned from.
pub fn two_on_a_line(sounding: f32) -> Survey {
    wet_at(&[0, 1, 15, 23], &[[64, 512, 512], [256, 512, 512]], sounding)
}

/// A chain of splits, each in the child in place 0: cells of depth 0 to `splits` − 1 are split.
pub fn chain(splits: usize) -> Survey {
    Survey::new(&Octree::new(|_, cube| cube.low == [0; 3] && (cube.depth() as usize) < splits), |_| -1.0)
}

/// Cells of depth 9 at one end of a diagonal of the box are split, and only the corner in their middle is wet: as near
/// to three outer faces as a corner inside can be.
fn wet_next_to_outside(at_upper_end: bool) -> Survey {
    let at_end =
        |cube: Cube| if at_upper_end { cube.low == [BOX_SIZE - cube.size; 3] } else { cube.low == [0; 3] };
    let wet = if at_upper_end { [BOX_SIZE - 1; 3] } else { [1; 3] };
    Survey::new(&Octree::new(|_, cube| at_end(cube)), |place| if place == wet { 1.0 } else { -1.0 })
}

/// A chain of eleven splits: a cell of depth 10 is split. No corner table fits it.
pub fn too_deep() -> Survey {
    Survey { cells: too_deep_table(|| 0), ..chain(10) }
}

/// The first 256 records split: 2,049 records, the most there may be.
pub fn full() -> Survey {
    Survey::new(&Octree::new(|record, _| record < 256), |_| -1.0)
}

/// Cells along a diagonal of the box, which meet in corners alone: 256 splits, and 4,872 corners, the most there may be.
pub fn most_corners() -> Survey {
    let is_split =
        |_, Cube { low: [x, y, z], size }: Cube| x == y && y == z && (size > 4 || size == 4 && x == 0);
    Survey::new(&Octree::new(is_split), |_| -1.0)
}

/// One leaf with this sounding at (0,0,0).
pub fn sounded(sounding: f32) -> Survey {
    wet_at(&[], &[[0, 0, 0]], sounding)
}

/// One split with this sounding at the centre.
pub fn centre_sounded(sounding: f32) -> Survey {
    wet_at(&[0], &[[512, 512, 512]], sounding)
}

/// Nine records, only record 3 split, entry 1.
pub fn entry_behind_itself() -> Survey {
    Survey { cells: cell_table(&[0, 0, 0, 1, 0, 0, 0, 0, 0]), ..centre_wet() }
}

/// The full cell table and one record more: 8,200 bytes.
pub fn too_many_cells() -> Survey {
    let mut survey = full();
    survey.cells.extend([0; 4]);
    survey
}

/// The surveys that are drawn.
pub fn drawn() -> Vec<Drawn> {
    let drawn = Drawn::new;
    let mut list = vec![
        drawn("the centre wet", centre_wet(), centre_points(256.0), centre_triangles()),
        drawn("all dry", level(-1.0), vec![], vec![]),
        drawn("two opposite wet corners", opposite_corners_wet(), opposite_points(), opposite_triangles()),
        drawn("dry -1 at 0, wet 3 at 256", quarter_place(), quarter_points(), twin_triangles()),
        drawn("sounding 1,048,576", centre_sounded(1_048_576.0), far_points(), centre_triangles()),
        drawn("the twin survey", twin(), twin_points(), twin_triangles()),
        drawn("open inside a side", open_inside_side(), open_points(), open_triangles()),
        drawn("two on a line", two_on_a_line(1.0), line_points(1.0), line_triangles()),
        drawn("two on a line, uneven", two_on_a_line(2.0), line_points(2.0), line_triangles()),
    ];
    for (at_upper_end, middle) in [(false, 1.0), (true, 1_023.0)] {
        let name = format!("wet next to the outside, at {middle} on each axis");
        let survey = wet_next_to_outside(at_upper_end);
        list.push(drawn(&name, survey, points_close_to(middle), centre_triangles()));
    }
    list.extend(drawn_at_clearance());
    list.extend(resounded::drawn());
    list
}

/// The surveys with soundings equal to the clearance or next to it: document 02, request 2.
fn drawn_at_clearance() -> Vec<Drawn> {
    let drawn = Drawn::new;
    let around = |wet, sounding, clearance| {
        let name = format!("{sounding:?} around {wet:?} at the centre, clearance {clearance:?}");
        let survey = awash_around(wet, sounding, clearance);
        drawn(&name, survey, centre_points(512.0), centre_triangles())
    };
    // Its difference to the dry soundings is rounded to 1, and so t is 1.
    let barely_wet = centre_sounded(0.0f32.next_up());
    let mut list = vec![
        around(1.1, 0.1, 0.1),
        around(0.1f32.next_up(), 0.1, 0.1),
        around(1_048_576.0, -1_048_576.0, -1_048_576.0),
        drawn("barely wet", barely_wet, centre_points(0.0), centre_triangles()),
        drawn("the greatest clearance", sounded(1_048_576.0).at(1_048_576.0), vec![], vec![]),
        drawn("the least clearance", level(-1_048_576.0).at(-1_048_576.0), vec![], vec![]),
    ];
    for (sounding, clearance) in ZEROS {
        let name = format!("sounding {sounding:?}, clearance {clearance:?}");
        list.push(drawn(&name, awash(sounding, clearance), vec![], vec![]));
        list.push(around(1.0, sounding, clearance));
    }
    for (number, face_centre) in FACE_CENTRES.into_iter().enumerate() {
        let mut points = centre_points(256.0);
        points[number] = face_centre.map(f32::from);
        let name = format!("awash on one side of the box, at {face_centre:?}");
        list.push(drawn(&name, awash_at(face_centre), points, centre_triangles()));
    }
    list
}

/// The surveys that checks decide.
#[allow(clippy::excessive_precision)] // document 01's own number
pub fn checked() -> Vec<Checked> {
    let checked = Checked::new;
    let mut list = vec![
        checked("2,049 records", full(), 0),
        checked("8,200 bytes", too_many_cells(), 1),
        checked("only record 3 split, entry 1", entry_behind_itself(), 3),
        checked("a cell of depth 9 split", chain(10), 0),
        checked("a cell of depth 10 split", too_deep(), 4),
    ];
    let numbers = [1_048_576.0, 1_048_576.125, f32::NAN, f32::INFINITY];
    for (number, lawful) in numbers.into_iter().zip([true, false, false, false]) {
        for (sign, signed) in [("", number), ("-", -number)] {
            // Where the number is lawful, the corner at (0,0,0) may be wet.
            let refusal = |check: u32, wet: bool| match (lawful, wet) {
                (false, _) => check,
                (true, true) => OPEN_AT_BOX,
                (true, false) => 0,
            };
            let name = |what: &str| format!("{what} {sign}{number:?}");
            list.push(checked(&name("sounding"), sounded(signed), refusal(7, signed > 0.0)));
            list.push(checked(&name("clearance"), one_corner_wet().at(signed), refusal(8, signed < 0.0)));
        }
    }
    list.extend(open_at_box());
    list.extend(resounded::checked());
    list
}

/// The surveys with a wet corner on an outer face: document 02, request 3.
fn open_at_box() -> Vec<Checked> {
    let open = |name: &str, survey| Checked::new(name, survey, OPEN_AT_BOX);
    let mut list = vec![
        open("the first corner wet", one_corner_wet()),
        open("the last corner wet", wet_at(&[], &[[BOX_SIZE; 3]], 1.0)),
        open("all wet", level(1.0)),
        open("wet on an edge of the box", quarter_place_at_box()),
    ];
    for face_centre in FACE_CENTRES {
        for (name, sounding) in [("wet", 1.0), ("barely wet", 0.0f32.next_up())] {
            let name = format!("{name} on one side of the box, at {face_centre:?}");
            list.push(open(&name, wet_at(&[0], &[face_centre], sounding)));
        }
    }
    list
}

#[cfg(test)]
mod tests {
    use std::collections::BTreeSet;

    use super::*;

    fn assert_each_once(names: impl Iterator<Item = String>) {
        let mut met = BTreeSet::new();
        for name in names {
            assert!(met.insert(name.clone()), "{name}");
        }
    }

    #[test]
    fn each_survey_has_a_name_of_its_own() {
        assert_each_once(drawn().into_iter().map(|example| example.name));
        assert_each_once(checked().into_iter().map(|example| example.name));
    }
}
