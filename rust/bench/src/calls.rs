//! The calls of the documents, made and timed.

use std::cell::RefCell;
use std::hint::black_box;

use crate::makers::{Maker, Proved, Rust};
use crate::subject::Subject;
use crate::timing::{in_turns, interleaved, ratio, Timing};

/// A call of the documents, on a survey without amendments but for one.
#[derive(Clone, Copy, Debug, PartialEq, Eq)]
pub enum Call {
    Check,
    Enquire,
    Draw,
    Volume,
    /// A drawing with 1,000 amendments.
    Amended,
    /// A drawing by a calendar of 1,000 records.
    Calendar,
    /// A way across the whole survey, at a clearance at which every corner is wet.
    Way,
    /// The same way for a convoy of 16 clearances.
    Convoy,
}

impl Call {
    /// All calls, in the order in which a row has them.
    pub const ALL: [Call; 8] = [
        Call::Check,
        Call::Enquire,
        Call::Draw,
        Call::Volume,
        Call::Amended,
        Call::Calendar,
        Call::Way,
        Call::Convoy,
    ];

    /// The calls that are timed against the drawing too: those that draw and do something more, and the way.
    pub const BY_DRAW: [Call; 4] = [Call::Volume, Call::Amended, Call::Calendar, Call::Way];
}

/// Times a call of both makers, in so many rounds.
pub fn time(call: Call, subject: &mut Subject, rounds: usize) -> Timing {
    let shared = RefCell::new(subject);
    let proved = || make::<Proved>(call, &mut shared.borrow_mut());
    let rust = || make::<Rust>(call, &mut shared.borrow_mut());
    interleaved(rounds, proved, rust)
}

/// A proved call by another proved one, timed in turns.
pub fn proved_by_proved(calls: [Call; 2], subject: &mut Subject, rounds: usize) -> f64 {
    let shared = RefCell::new(subject);
    let [call, other] = calls.map(|call| {
        let shared = &shared;
        move || make::<Proved>(call, &mut shared.borrow_mut())
    });
    ratio(&in_turns(rounds, call, other))
}

/// Makes a call once. Enquiries are about one edge after another.
pub fn make<M: Maker>(call: Call, subject: &mut Subject) {
    let Subject { survey, amended, asked, enquiries, point_slice, triangle_slice, way_slice, work_slice } =
        black_box(subject);
    match call {
        Call::Check => _ = black_box(M::check(survey)),
        Call::Enquire => {
            enquiries.rotate_left(1);
            _ = black_box(M::enquire(survey, enquiries[0]));
        }
        Call::Draw => _ = black_box(M::draw(survey, point_slice, triangle_slice)),
        Call::Volume => _ = black_box(M::volume(survey, point_slice, triangle_slice)),
        Call::Amended => _ = black_box(M::draw(amended, point_slice, triangle_slice)),
        Call::Calendar => _ = black_box(M::draw_by_calendar(survey, asked, point_slice, triangle_slice)),
        Call::Way => _ = black_box(M::way(survey, way_slice, work_slice)),
        Call::Convoy => _ = black_box(M::convoy(survey, way_slice, work_slice)),
    }
}

/// Stops if the two makers differ in any answer, or a drawing with amendments or by calendar from one without: what is timed must be the same work.
pub fn compare(subject: &Subject) {
    let Subject { survey, amended, asked, enquiries, .. } = subject;
    assert_eq!(Proved::check(survey), Rust::check(survey));
    for &enquiry in enquiries {
        assert_eq!(Proved::enquire(survey, enquiry), Rust::enquire(survey, enquiry), "{enquiry:?}");
    }
    let drawn = written(subject, |points, triangles| Rust::draw(survey, points, triangles));
    assert_eq!(written(subject, |points, triangles| Proved::draw(survey, points, triangles)), drawn);
    assert_eq!(written(subject, |points, triangles| Proved::draw(amended, points, triangles)), drawn);
    assert_eq!(written(subject, |points, triangles| Rust::draw(amended, points, triangles)), drawn);
    let by_proved = |points: &mut [f32], triangles: &mut [u32]| {
        Proved::draw_by_calendar(survey, asked, points, triangles)
    };
    assert_eq!(written(subject, by_proved), drawn);
    let by_rust =
        |points: &mut [f32], triangles: &mut [u32]| Rust::draw_by_calendar(survey, asked, points, triangles);
    assert_eq!(written(subject, by_rust), drawn);
    let reckoned = written(subject, |points, triangles| Rust::volume(survey, points, triangles));
    assert_eq!(written(subject, |points, triangles| Proved::volume(survey, points, triangles)), reckoned);
    compare_ways(subject);
}

/// Stops if the two makers differ in the way, of one boat or of the convoy, or there is none, or a corner is out of reach: then it would not lead across
/// the survey.
fn compare_ways(subject: &Subject) {
    let Subject { survey, way_slice, work_slice, .. } = subject;
    let lengths = [way_slice, work_slice].map(Vec::len);
    let shown = lent(lengths, |way, work| Rust::way(survey, way, work));
    assert_eq!(lent(lengths, |way, work| Proved::way(survey, way, work)), shown);
    assert_eq!(lent(lengths, |way, work| Proved::convoy(survey, way, work)), shown);
    assert_eq!(lent(lengths, |way, work| Rust::convoy(survey, way, work)), shown);
    let ([number, corners], _, work) = shown;
    assert_eq!(number, 0);
    assert!(corners > 1 && !work.contains(&0), "{corners}");
}

/// What a call that draws returns and leaves in the slices.
fn written<R>(subject: &Subject, call: impl FnOnce(&mut [f32], &mut [u32]) -> R) -> (R, Vec<f32>, Vec<u32>) {
    lent([subject.point_slice.len(), subject.triangle_slice.len()], call)
}

/// What a call returns and leaves in slices of these lengths.
fn lent<A: Clone + Default, B: Clone + Default, R>(
    lengths: [usize; 2],
    call: impl FnOnce(&mut [A], &mut [B]) -> R,
) -> (R, Vec<A>, Vec<B>) {
    let (mut first, mut second) = (vec![A::default(); lengths[0]], vec![B::default(); lengths[1]]);
    let result = call(&mut first, &mut second);
    (result, first, second)
}
