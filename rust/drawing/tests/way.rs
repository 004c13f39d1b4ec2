//! Ways, of one boat and of convoys: as said by hand, as all ways over wet corners have them, and every refusal in its order. A convoy's is that of one boat
//! at the greatest clearance. Each failure names the generator and the seed that make the survey again.

mod tables;

use drawing::{convoy, way, Passage};
use surveys::asked::{compare_convoys_with_all_ways, compare_with_all_ways, questions, Asked};
use surveys::boats::{convoy_questions, lawful_convoy, Convoy};
use surveys::generate::{self, named};
use surveys::joints::Due;
use surveys::lent::{lend_for_way, WaySlices};
use surveys::refusals::{of_convoy, of_way, CONVOY, NO_WAY, ORDER, WAY_END, WAY_SLICE};
use surveys::survey::Record;
use surveys::ways::{known, several, Known, Several};
use surveys::{convoys, damage, Survey};
use tables::tables;

/// Asks for one boat, with slices of these lengths. Only what is due may be touched.
fn asked(survey: &Survey, question: Asked, what: &str) -> WaySlices<Passage> {
    lent(survey, question, what, |[start, end], lent_way, work| {
        way(tables(survey), survey.clearance, start, end, lent_way, work)
    })
}

/// Asks for a convoy. If it is answered, one boat at the greatest of the clearances is answered alike.
fn asked_for(survey: &Survey, clearances: &[f32], question: Asked, what: &str) -> WaySlices<Passage> {
    let what = &format!("{what}, at {clearances:?}");
    let shown = lent(survey, question, what, |[start, end], lent_way, work| {
        convoy(tables(survey), clearances, start, end, lent_way, work)
    });
    if [0, 20].contains(&shown.0.number) {
        let greatest = clearances.iter().copied().fold(f32::NEG_INFINITY, f32::max);
        assert_eq!(
            shown,
            asked(&survey.clone().at(greatest), question, what),
            "{what}: one boat at {greatest}"
        );
    }
    shown
}

/// Lends slices to a call.
fn lent(
    survey: &Survey,
    Asked { ends, rooms }: Asked,
    what: &str,
    call: impl FnOnce([u32; 2], &mut [u16], &mut [u16]) -> Passage,
) -> WaySlices<Passage> {
    let corners = survey.corners.len() / Record::BYTES;
    lend_for_way(rooms, None, what, |way, work| {
        let passage = call(ends, way, work);
        (passage, passage.written(corners))
    })
}

/// The question of which something is due, with slices that are just long enough.
fn question(due: &Due) -> Asked {
    Asked { ends: due.ends.map(u32::from), rooms: [due.work.len(); 2] }
}

fn assert_due(survey: &Survey, due: &Due, what: &str) {
    let (Passage { number, corners }, way, work) = asked(survey, question(due), what);
    due.assert_given([number, corners], &way, &work, what);
}

fn assert_due_of_convoy(survey: &Survey, clearances: &[f32], due: &Due, what: &str) {
    let (Passage { number, corners }, way, work) = asked_for(survey, clearances, question(due), what);
    due.assert_given([number, corners], &way, &work, what);
}

#[test]
fn the_ways_that_can_be_said_by_hand() {
    for Known { name, survey, due } in known() {
        assert_due(&survey, &due, name);
    }
}

#[test]
fn of_all_ways_the_shortest_and_of_these_the_lowest() {
    compare_with_all_ways(0..1_000, assert_due);
}

/// Random surveys, of which a third is lawful.
fn lawful_and_not() -> impl Iterator<Item = (String, Survey)> {
    let small = named("small mixed", 0..1_000, |seed| generate::small_mixed(seed, 8));
    let corrupted = named("corrupted", 0..1_000, damage::corrupted);
    let damaged = named("damaged", 0..1_000, |seed| damage::damaged(seed).survey);
    small.chain(corrupted).chain(damaged)
}

/// What a question may come to if nothing is wrong with the survey and the clearances.
const OF_QUESTIONS: [u32; 4] = [0, WAY_END, WAY_SLICE, NO_WAY];

/// How often ways and each refusal were met, by number.
#[derive(Default)]
struct Met([u32; 22]);

impl Met {
    /// Takes down what was returned, which must be this refusal, or a way with 0.
    fn add(&mut self, Passage { number, corners }: Passage, due: u32, what: &str) {
        assert_eq!(number, due, "{what}");
        assert_eq!(number == 0, corners > 0, "{what}");
        self.0[number as usize] += 1;
    }

    /// Stops if one of these numbers, or a refusal of a survey or a clearance, was met seldom, or 12 at all.
    fn assert_often(&self, numbers: &[u32]) {
        for refusal in ORDER.into_iter().chain(numbers.iter().copied()) {
            let times = self.0[refusal as usize];
            assert!(times > 20, "{refusal} was met {times} times");
        }
        assert_eq!(self.0[12], 0, "12 is not given for a way");
    }
}

#[test]
fn refusals_are_those_of_the_plain_checks() {
    for Several { survey, ends, rooms, refusal } in several() {
        let (passage, ..) = asked(&survey, Asked { ends, rooms }, "several");
        assert_eq!(passage.number, refusal, "from {ends:?} with room for {rooms:?}");
    }
    let mut met = Met::default();
    for (seed, (what, survey)) in (0..).zip(lawful_and_not()) {
        for question in questions(seed, &survey, 2) {
            let (passage, ..) = asked(&survey, question, &what);
            let due = of_way(&survey, question.ends, question.rooms);
            met.add(passage, due, &format!("{what}: {question:?}"));
        }
    }
    met.assert_often(&OF_QUESTIONS);
}

#[test]
fn the_convoys_that_can_be_said_by_hand() {
    for convoys::Known { name, survey, convoys, due } in convoys::known() {
        convoys.iter().for_each(|clearances| assert_due_of_convoy(&survey, clearances, &due, &name));
    }
}

#[test]
fn of_all_ways_for_a_convoy_the_shortest_and_of_these_the_lowest() {
    compare_convoys_with_all_ways(0..1_000, lawful_convoy, assert_due_of_convoy);
}

#[test]
fn refusals_of_convoys_are_those_of_the_plain_checks() {
    for convoys::Several { survey, clearances, ends, rooms, refusal } in convoys::several() {
        let (passage, ..) = asked_for(&survey, &clearances, Asked { ends, rooms }, "several");
        assert_eq!(passage.number, refusal, "{clearances:?} from {ends:?} with room for {rooms:?}");
    }
    let mut met = Met::default();
    for (seed, (what, survey)) in (0..).zip(lawful_and_not()) {
        for Convoy { clearances, asked } in convoy_questions(seed, &survey, 2) {
            let (passage, ..) = asked_for(&survey, &clearances, asked, &what);
            let due = of_convoy(&survey, &clearances, asked.ends, asked.rooms);
            met.add(passage, due, &format!("{what}: {asked:?} at {clearances:?}"));
        }
    }
    met.assert_often(&[&OF_QUESTIONS[..], &[CONVOY]].concat());
}
