//! The surveys of document 01, "Surveys to try", and the small ones beside them.

mod tables;

use drawing::{check, draw, draw_to_vec, enquire, Drawn, Edge, End};
use surveys::lent::{self, bits};
use surveys::{closing, document, Survey};
use tables::tables;

fn refusal(survey: &Survey) -> u32 {
    draw_to_vec(tables(survey), survey.clearance).map_or_else(|number| number, |_| 0)
}

fn ask(survey: &Survey, axis: u32, lower_end: [u32; 3], length: u32) -> Result<Edge, u32> {
    enquire(tables(survey), survey.clearance, axis, lower_end, length)
}

#[test]
fn drawings_are_exactly_those_of_the_document() {
    for document::Drawn { name, survey, points, triangles } in document::drawn() {
        let drawing = draw_to_vec(tables(&survey), survey.clearance).expect(&name);
        assert_eq!(bits(&drawing.points), bits(&points.concat()), "{name}: points {:?}", drawing.points);
        assert_eq!(drawing.triangles, triangles.concat(), "{name}: triangles");
        assert_eq!(closing::check(&survey, &drawing.points, &drawing.triangles), Ok(()), "{name}");
    }
}

#[test]
fn checks_decide_as_the_document_says() {
    for example in document::checked() {
        let document::Checked { name, survey, refusal: expected } = &example;
        assert_eq!(refusal(survey), *expected, "{name}");
        assert_eq!(check(tables(survey)), example.by_itself(), "{name}, by itself");
    }
}

#[test]
fn the_surveys_have_the_sizes_that_the_document_gives() {
    assert_eq!(document::twin().cells.len(), 17 * 4);
    assert_eq!(document::twin().corners.len(), 46 * 12);
    assert_eq!(document::two_on_a_line(1.0).corners.len(), 84 * 12);
    assert_eq!(document::full().cells.len(), 2_049 * 4);
    assert_eq!(document::too_many_cells().cells.len(), 8_200);
}

/// Draws the survey with only the centre wet into slices of these lengths.
fn draw_centre(point_room: usize, triangle_room: usize) -> (Drawn, Vec<f32>, Vec<u32>) {
    let survey = document::centre_wet();
    let (mut points, mut triangles) = (lent::floats(point_room), lent::numbers(triangle_room));
    let drawn = draw(tables(&survey), survey.clearance, &mut points, &mut triangles);
    (drawn, points, triangles)
}

#[test]
fn slices_of_18_and_24_are_enough() {
    let (drawn, points, triangles) = draw_centre(18, 24);
    assert_eq!(drawn, Drawn { number: 0, points: 6, triangles: 8 });
    let vectors = draw_to_vec(tables(&document::centre_wet()), 0.0).unwrap();
    assert_eq!(points, vectors.points);
    assert_eq!(triangles, vectors.triangles);
}

#[test]
fn a_point_slice_of_17_is_refusal_9() {
    for triangle_room in [24, 23] {
        let (drawn, points, triangles) = draw_centre(17, triangle_room);
        assert_eq!(drawn, Drawn { number: 9, points: 6, triangles: 8 });
        assert_eq!(bits(&points), bits(&lent::floats(17)));
        assert_eq!(triangles, lent::numbers(triangle_room));
    }
}

#[test]
fn a_triangle_slice_of_23_is_refusal_10() {
    let (drawn, points, triangles) = draw_centre(18, 23);
    assert_eq!(drawn, Drawn { number: 10, points: 6, triangles: 8 });
    assert_eq!(bits(&points), bits(&lent::floats(18)));
    assert_eq!(triangles, lent::numbers(23));
}

#[test]
fn elements_past_the_last_are_untouched() {
    let (drawn, points, triangles) = draw_centre(25, 30);
    assert_eq!(drawn.number, 0);
    assert_eq!(bits(&points[18..]), bits(&lent::floats(25)[18..]));
    assert_eq!(triangles[24..], lent::numbers(30)[24..]);
}

#[test]
fn a_survey_without_points_needs_no_slices() {
    let survey = document::level(-1.0);
    let drawn = draw(tables(&survey), survey.clearance, &mut [], &mut []);
    assert_eq!(drawn, Drawn { number: 0, points: 0, triangles: 0 });
}

#[test]
fn dry_at_0_and_wet_3_at_256_cross_at_64() {
    let crossing = |place| Ok(Edge::Crossing { number: 0, place, wet_end: End::Upper });
    let inside = ask(&document::quarter_place(), 0, [0, 512, 512], 256);
    assert_eq!(inside, crossing([64.0, 512.0, 512.0]));
    let at_box = document::quarter_place_at_box();
    assert_eq!(refusal(&at_box), 12);
    assert_eq!(ask(&at_box, 0, [0, 0, 0], 256), crossing([64.0, 0.0, 0.0]));
}

#[test]
fn an_odd_divided_edge_has_the_point_of_its_odd_half() {
    let wet_origin = document::wet_at(&[0, 1], &[[0, 0, 0]], 1.0);
    for length in [256, 512, 1024] {
        let crossing = Ok(Edge::Crossing { number: 1, place: [0.0, 128.0, 0.0], wet_end: End::Lower });
        assert_eq!(ask(&wet_origin, 1, [0, 0, 0], length), crossing, "length {length}");
    }
    assert_eq!(ask(&wet_origin, 1, [0, 256, 0], 256), Ok(Edge::Even));
}

#[test]
fn an_edge_of_no_cell_is_refusal_11() {
    let survey = document::twin();
    let refused = [
        (3, [0, 0, 0], 1024, "axis 3"),
        (u32::MAX, [0, 0, 0], 1024, "a huge axis"),
        (0, [0, 0, 0], 0, "no length"),
        (0, [0, 0, 0], 768, "no power of two"),
        (0, [0, 0, 0], 2048, "longer than the box"),
        (0, [0, 0, 0], 1 << 31, "far longer than the box"),
        (0, [0, 0, 0], u32::MAX, "the greatest length"),
        (0, [0, 0, 0], 128, "shorter than any cell"),
        (0, [1024, 0, 0], 1024, "past the box"),
        (0, [1 << 16, 0, 0], 1024, "would wrap to 0 in 16 bits"),
        (2, [0, 0, u32::MAX - 1023], 1024, "would wrap to 0 in 32 bits"),
        (0, [1, 0, 0], 256, "off the grid"),
        (0, [256, 0, 0], 512, "overlaps two cells"),
        (0, [512, 512, 256], 512, "ends at corners, but is no edge"),
    ];
    for (axis, low, length, why) in refused {
        assert_eq!(ask(&survey, axis, low, length), Err(11), "{why}");
    }
}

#[test]
fn an_enquiry_is_refused_first_for_its_survey() {
    for example in document::checked() {
        let expected = match example.for_enquiry() {
            0 => 11,
            refusal => refusal,
        };
        assert_eq!(ask(&example.survey, 3, [0, 0, 0], 1024), Err(expected), "{}", example.name);
    }
}
