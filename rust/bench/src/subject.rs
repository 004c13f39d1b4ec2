//! A survey to time calls on, with the slices lent to calls and the edges to enquire about.

use surveys::amendments::{self, with_amendments};
use surveys::calendars::{of_records, Asked};
use surveys::plain::{octree, records};
use surveys::random::Random;
use surveys::Survey;

use crate::makers::rust;
use crate::SEED;

/// How many edges are enquired about in turn.
const ENQUIRIES: usize = 16;

/// How many records the calendar has.
const RECORDS: u32 = 1_000;

/// An edge to enquire about.
#[derive(Clone, Copy, Debug)]
pub struct Enquiry {
    /// The axis, 0 to 2.
    pub axis: u32,
    /// The lower end.
    pub low: [u32; 3],
    /// The length.
    pub length: u32,
}

/// A survey with all that the calls on it need.
pub struct Subject {
    pub survey: Survey,
    /// The same survey with as many amendments as there may be: its drawing is the same.
    pub amended: Survey,
    /// A calendar that has the survey's clearance in force at a minute: the drawing by it is the same.
    pub asked: Asked,
    pub enquiries: Vec<Enquiry>,
    pub point_slice: Vec<f32>,
    pub triangle_slice: Vec<u32>,
    pub way_slice: Vec<u16>,
    pub work_slice: Vec<u16>,
}

impl Subject {
    /// A survey that is drawn, with slices that its drawing just fills, and those that a way needs.
    pub fn new(survey: Survey) -> Subject {
        let drawn = drawing::draw_to_vec(rust(&survey), survey.clearance);
        let drawing::Drawing { points, triangles } = drawn.expect("a survey that is drawn");
        let corners = records(&survey.corners).count();
        Subject {
            enquiries: enquiries(&survey),
            amended: with_amendments(&mut Random::new(SEED), &survey, amendments::MOST),
            asked: of_records(RECORDS, survey.clearance),
            survey,
            point_slice: vec![0.0; points.len()],
            triangle_slice: vec![0; triangles.len()],
            way_slice: vec![0; corners],
            work_slice: vec![0; corners],
        }
    }

    /// How many points the drawing has.
    pub fn points(&self) -> usize {
        self.point_slice.len() / 3
    }

    /// How many triangles the drawing has.
    pub fn triangles(&self) -> usize {
        self.triangle_slice.len() / 3
    }
}

/// Edges of cells from all over the cell table, on every axis.
fn enquiries(survey: &Survey) -> Vec<Enquiry> {
    let cubes = octree(&survey.cells).cubes;
    let enquiry = |number: usize| {
        let cube = cubes[number * cubes.len() / ENQUIRIES];
        Enquiry { axis: number as u32 % 3, low: cube.low.map(u32::from), length: u32::from(cube.size) }
    };
    (0..ENQUIRIES).map(enquiry).collect()
}
