//! The boundary of the compiled calls: slices that are exactly as long as they are said to be, on the heap (for valgrind to watch) or against an
//! inaccessible page, on lawful and damaged surveys; and no more stack than the header says. Each failure names the seed that makes the survey again.
//! `CLEARANCE_BOUNDARY` sets how many surveys of each kind.

mod convoys;
mod guarded;
#[path = "../number/mod.rs"]
mod number;
mod stack;
#[path = "../tables/mod.rs"]
mod tables;
mod trespass;
mod ways;

use std::collections::BTreeSet;
use std::ops::{Deref, DerefMut};

use clearance::{Counts, Edge, Refusal, Refused, Water};
use guarded::{Guarded, Side};
use number::number;
use surveys::calendars::{self, Asked, Kind};
use surveys::lent::{self, bits, Slices};
use surveys::plain::{self, Plain};
use surveys::refusals::{self, OPEN_AT_BOX};
use surveys::tally::{Kinds, Tally};
use surveys::{damage, document, generate, water, Survey};

/// Where slices lie.
#[derive(Clone, Copy, Debug)]
enum Lender {
    Heap,
    Page(Side),
}

impl Lender {
    /// A table or other elements, for reading only.
    fn table<T: Copy + 'static>(self, elements: &[T]) -> Box<dyn Deref<Target = [T]>> {
        match self {
            Lender::Heap => Box::new(Box::<[T]>::from(elements)),
            Lender::Page(side) => Box::new(Guarded::new(elements, side).sealed()),
        }
    }

    /// A slice of these elements, to be written to.
    fn slice<T: Copy + 'static>(self, elements: Vec<T>) -> Box<dyn DerefMut<Target = [T]>> {
        match self {
            Lender::Heap => Box::new(elements.into_boxed_slice()),
            Lender::Page(side) => Box::new(Guarded::new(&elements, side)),
        }
    }
}

/// A calendar that a lender holds, to be asked at a minute.
struct Dated {
    calendar: Box<dyn Deref<Target = [u8]>>,
    minute: u32,
    /// The clearance in force, or the refusal.
    due: Result<f32, u32>,
    kind: Kind,
}

impl Dated {
    fn new(lender: Lender, Asked { calendar, minute, due, kind }: Asked) -> Dated {
        Dated { calendar: lender.table(&calendar), minute, due, kind }
    }
}

/// A survey whose tables a lender holds.
struct Lent<'a> {
    lender: Lender,
    cells: Box<dyn Deref<Target = [u8]>>,
    corners: Box<dyn Deref<Target = [u8]>>,
    amendments: Box<dyn Deref<Target = [u8]>>,
    clearance: f32,
    /// A calendar that has this clearance in force, and one that is refused.
    holding: Dated,
    refused: Dated,
    what: &'a str,
}

impl Lent<'_> {
    /// The tables as the calls take them.
    fn tables(&self) -> clearance::Survey<'_> {
        clearance::Survey::new(&self.cells, &self.corners).amended(&self.amendments)
    }

    /// Makes a call with slices of these lengths. If it is refused, it must leave both as they were.
    fn lend<R>(
        &self,
        points: usize,
        triangles: usize,
        call: impl FnOnce(&mut [f32], &mut [u32]) -> Result<R, Refused>,
    ) -> Slices<Result<R, Refused>> {
        let mut floats = self.lender.slice(lent::floats(points));
        let mut numbers = self.lender.slice(lent::numbers(triangles));
        let result = call(&mut floats, &mut numbers);
        if result.is_err() {
            assert_eq!(bits(&floats), bits(&lent::floats(points)), "{}: refused and touched", self.what);
            assert_eq!(numbers[..], lent::numbers(triangles), "{}: refused and touched", self.what);
        }
        (result, floats.to_vec(), numbers.to_vec())
    }

    /// Reckons the space inside, with slices of these lengths.
    fn reckon(&self, reference: [u32; 3], points: usize, triangles: usize) -> Slices<Result<Water, Refused>> {
        self.lend(points, triangles, |floats, numbers| {
            clearance::volume(self.tables(), self.clearance, reference, floats, numbers)
        })
    }

    /// Draws by a calendar into slices of these lengths.
    fn draw_by_calendar(
        &self,
        dated: &Dated,
        points: usize,
        triangles: usize,
    ) -> Slices<Result<Counts, Refused>> {
        self.lend(points, triangles, |floats, numbers| {
            clearance::draw_by_calendar(self.tables(), &dated.calendar, dated.minute, floats, numbers)
        })
    }

    /// By the calendar that has the clearance in force the result and the elements are those that are due; by the other it is refused, unless the survey
    /// by itself is.
    fn assert_by_calendar(&self, due: Result<Counts, Refused>, floats: &[f32], numbers: &[u32]) {
        let what = self.what;
        let (points, triangles) = (floats.len(), numbers.len());
        let (result, same_floats, same_numbers) = self.draw_by_calendar(&self.holding, points, triangles);
        assert_eq!(result, due, "{what}: by calendar");
        let same = bits(&same_floats) == bits(floats) && same_numbers == numbers;
        assert!(same, "{what}: slices by calendar");
        let (refused, ..) = self.draw_by_calendar(&self.refused, points, triangles);
        let own = clearance::check(self.tables());
        let expected =
            own.map_or_else(Refusal::number, |()| self.refused.due.expect_err("a refused calendar"));
        assert_eq!(number(refused), expected, "{what}: by a calendar that is refused");
    }

    /// Draws into slices of these lengths, by hand and by calendar, and reckons the space inside with others alike: result and elements must be the same.
    fn draw(&self, points: usize, triangles: usize) -> (Result<Counts, Refused>, Vec<f32>) {
        let what = self.what;
        let (result, floats, numbers) = self.lend(points, triangles, |floats, numbers| {
            clearance::draw(self.tables(), self.clearance, floats, numbers)
        });
        self.assert_by_calendar(result, &floats, &numbers);
        let (reckoned, same_floats, same_numbers) = self.reckon([1_024, 0, 512], points, triangles);
        assert_eq!(reckoned.map(|water| water.counts), result, "{what}: volume");
        assert!(
            bits(&floats) == bits(&same_floats) && numbers == same_numbers,
            "{what}: slices of the volume"
        );
        if let Ok(Water { sixfold, .. }) = reckoned {
            assert_eq!(i128::from(sixfold), water::sixfold(&floats, &numbers), "{what}: volume");
        }
        (result, floats)
    }

    /// Draws into slices that are exactly long enough, one element too short, and empty, and from a reference beyond the box. Gives back the points.
    fn assert_drawn(&self) -> Vec<f32> {
        let counts = self.draw(0, 0).0.unwrap_or_else(|refused| refused.counts);
        let (points, triangles) = (counts.point_elements(), counts.triangle_elements());
        if points > 0 {
            let refused = |refusal| Err(Refused { refusal, counts });
            assert_eq!(self.draw(points - 1, triangles).0, refused(Refusal::PointSlice), "{}", self.what);
            assert_eq!(self.draw(points, triangles - 1).0, refused(Refusal::TriangleSlice), "{}", self.what);
        }
        let beyond = Refused { refusal: Refusal::Reference, counts: Counts::default() };
        assert_eq!(self.reckon([0, 0, 1_025], points, triangles).0, Err(beyond), "{}", self.what);
        let (result, floats) = self.draw(points, triangles);
        assert_eq!(result, Ok(counts), "{}", self.what);
        floats
    }

    /// Draws a survey with a wet corner on an outer face, which is refused ahead of any slice.
    fn assert_open(&self) {
        for (points, triangles) in [(0, 0), (7, 0), (0, 5), (7, 5)] {
            let refused = Refused { refusal: Refusal::OpenAtBox, counts: Counts::default() };
            assert_eq!(self.draw(points, triangles).0, Err(refused), "{}: open at the box", self.what);
        }
    }

    /// Asks, at a few corners, about an edge of each length, most of which no cell has. The answers must be of these points; gives back how many were
    /// crossing.
    fn assert_answered(&self, points: &[f32]) -> usize {
        let records = plain::records(&self.corners);
        let places: Vec<_> = records.map(|record| record.place.map(u32::from)).collect();
        let few = places.iter().enumerate().step_by(1 + places.len() / 3);
        let asked = few.flat_map(|(n, &place)| (0..=11).map(move |level| (n as u32 % 4, place, 1 << level)));
        asked.filter(|&(axis, place, length)| self.is_crossing(points, axis, place, length)).count()
    }

    fn is_crossing(&self, points: &[f32], axis: u32, lower_end: [u32; 3], length: u32) -> bool {
        match clearance::enquire(self.tables(), self.clearance, axis, lower_end, length) {
            Ok(Edge::Crossing { number, place, .. }) => {
                assert_eq!(bits(&place), bits(&points[3 * number as usize..][..3]), "{}", self.what);
                true
            }
            Ok(Edge::Even) | Err(Refusal::NoEdge) => false,
            Err(refusal) => panic!("{}: {refusal}", self.what),
        }
    }

    /// All calls refuse the survey alike.
    fn assert_refused(&self, refusal: u32) {
        let what = self.what;
        let answer = clearance::enquire(self.tables(), self.clearance, 0, [0; 3], 1_024);
        assert_eq!(number(answer), refusal, "{what}: enquiry");
        let (result, _) = self.draw(7, 5);
        assert_eq!(number(result), refusal, "{what}: drawing");
        assert_eq!(result.unwrap_or_else(|refused| refused.counts), Counts::default(), "{what}: counts");
    }
}

/// What was seen of a survey.
struct Seen {
    /// The first refusal of drawing that the slices have no part in, or 0.
    refusal: u32,
    /// How many crossing points there are, drawn or not.
    points: usize,
    /// Enquiries that met a crossing edge.
    crossings: usize,
    /// Ways that were shown, to one boat.
    ways: usize,
    /// Ways that were shown to convoys.
    convoys: usize,
    /// The kinds of calendars that it was drawn by.
    kinds: [Kind; 2],
}

/// Makes all calls with slices that a lender lends, by the calendars of this seed.
fn look(survey: &Survey, lender: Lender, seed: u64, what: &str) -> Seen {
    let Survey { cells, corners, amendments, clearance } = survey;
    let [cells, corners, amendments] = [cells, corners, amendments].map(|table| lender.table(table));
    let what = &format!("{lender:?}, {what}, calendars of seed {seed}");
    let holding = Dated::new(lender, calendars::holding(seed, *clearance));
    let refused = Dated::new(lender, calendars::refused(seed, *clearance));
    let kinds = [holding.kind, refused.kind];
    let lent = Lent { lender, cells, corners, amendments, clearance: *clearance, holding, refused, what };
    let refusal = refusals::of_drawing(survey);
    let check = number(clearance::check(lent.tables()));
    assert_eq!(check, refusals::by_itself(refusal), "{what}: check");
    let (ways, convoys) = (lent.assert_ways(survey, refusal, seed), lent.assert_convoys(survey, seed));
    let points = match refusal {
        0 => lent.assert_drawn(),
        OPEN_AT_BOX => {
            lent.assert_open();
            let plain = Plain::read(survey);
            plain.carriers.iter().flat_map(|&edge| plain.place(edge)).collect()
        }
        _ => {
            lent.assert_refused(refusal);
            return Seen { refusal, points: 0, crossings: 0, ways, convoys, kinds };
        }
    };
    Seen { refusal, points: points.len() / 3, crossings: lent.assert_answered(&points), ways, convoys, kinds }
}

/// Lawful surveys: by far most are drawn, the enquiry meets crossing edges, ways are shown to boats and convoys, and calendars are of every kind.
fn assert_lawful_within(lender: Lender, surveys: u64) {
    let (mut tally, mut kinds) = (Tally::default(), Kinds::default());
    let (mut crossings, mut ways, mut convoys) = (0, 0, 0);
    for (seed, (what, survey)) in (0..).zip(generate::named("mixed", 0..surveys, generate::mixed)) {
        let seen = look(&survey, lender, seed, &what);
        match seen.refusal {
            0 => tally.add_drawn(&survey, seen.points),
            OPEN_AT_BOX => tally.add_open(),
            refusal => panic!("{what}: refusal {refusal}"),
        }
        crossings += seen.crossings;
        ways += seen.ways;
        convoys += seen.convoys;
        seen.kinds.into_iter().for_each(|kind| kinds.add(kind));
    }
    tally.assert_most_drawn(&format!("{lender:?}"));
    kinds.assert_all_met(surveys as usize / 50, &format!("{lender:?}"));
    assert!(crossings as u64 >= surveys / 10, "{crossings} crossing edges");
    assert!(ways as u64 >= surveys / 4, "{ways} ways");
    assert!(convoys as u64 >= surveys / 4, "{convoys} ways of convoys");
}

/// Examples and damaged surveys: they meet every refusal that the slices have no part in.
fn assert_others_within(lender: Lender, surveys: u64) {
    let examples = document::checked().into_iter().map(|example| (example.name, example.survey));
    let long_loop = generate::named("long loop", 0..1, generate::long_loop);
    let damaged = generate::named("damaged", 0..surveys, |seed| damage::damaged(seed).survey);
    let corrupted = generate::named("corrupted", 0..surveys, damage::corrupted);
    let others = (0..).zip(examples.chain(long_loop).chain(damaged).chain(corrupted));
    let met: BTreeSet<u32> =
        others.map(|(seed, (what, survey))| look(&survey, lender, seed, &what).refusal).collect();
    let due: BTreeSet<u32> = refusals::ORDER.into_iter().chain([0, OPEN_AT_BOX]).collect();
    assert!(surveys < 100 || met == due, "refusals met: {met:?}");
}

fn assert_all_within(lender: Lender) {
    let surveys = std::env::var("CLEARANCE_BOUNDARY").map_or(200, |text| text.parse().expect("a number"));
    assert_lawful_within(lender, surveys);
    assert_others_within(lender, surveys);
}

#[test]
fn slices_on_the_heap() {
    assert_all_within(Lender::Heap);
}

#[test]
fn slices_after_an_inaccessible_page() {
    assert_all_within(Lender::Page(Side::Before));
}

#[test]
fn slices_before_an_inaccessible_page() {
    assert_all_within(Lender::Page(Side::After));
}

/// A calendar may lie at any address.
#[test]
fn calendars_at_odd_addresses() {
    let survey = document::twin();
    let tables = clearance::Survey::new(&survey.cells, &survey.corners);
    let by_hand = clearance::draw_to_vec(tables, 0.0);
    for (seed, offset) in (0..200).flat_map(|seed| (0..16).map(move |offset| (seed, offset))) {
        let Asked { calendar, minute, .. } = calendars::holding(seed, 0.0);
        let moved = [&vec![0xff; offset][..], &calendar].concat();
        let drawn = clearance::draw_by_calendar_to_vec(tables, &moved[offset..], minute);
        assert_eq!(drawn, by_hand, "calendar of seed {seed}, {offset} bytes on");
    }
}
