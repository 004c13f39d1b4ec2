//! How many surveys of a comparison were drawn, and how many of these are amended: one in which nearly all are refused
//! shows little. And how often calendars of each kind, and ways and convoys of each kind, were met.

use std::collections::BTreeMap;
use std::fmt;

use crate::amendments::some_hold;
use crate::calendars::Kind;
use crate::joints::Joints;
use crate::refusals::{CONVOY, NO_WAY, WAY_END, WAY_SLICE};
use crate::Survey;

/// So few surveys need not show every outcome.
const FEW: usize = 100;

/// What became of the surveys of a comparison.
#[derive(Clone, Copy, Debug, Default, PartialEq, Eq)]
pub struct Tally {
    /// Drawn, with points.
    with_points: usize,
    /// Drawn, and empty.
    empty: usize,
    /// Of those drawn, with an amendment that holds.
    amended: usize,
    /// Refused for a wet corner on an outer face: 12.
    open: usize,
}

impl Tally {
    /// Takes down that a survey was drawn, with so many points.
    pub fn add_drawn(&mut self, survey: &Survey, points: usize) {
        match points {
            0 => self.empty += 1,
            _ => self.with_points += 1,
        }
        self.amended += usize::from(some_hold(survey));
    }

    /// Takes down that a survey was refused by 12.
    pub fn add_open(&mut self) {
        self.open += 1;
    }

    /// Says what became of the surveys, and stops if too few were drawn or amended, or none was refused.
    pub fn assert_most_drawn(&self, what: &str) {
        println!("{what}: {self}");
        assert!(self.shows_enough(), "{what}: {self}");
    }

    /// By far most were drawn, most with points, a quarter amended, and some refused.
    fn shows_enough(&self) -> bool {
        let Tally { with_points, empty, amended, open } = *self;
        let total = with_points + empty + open;
        let most = 5 * (with_points + empty) > 4 * total && 5 * with_points > 3 * total;
        total < FEW || (most && 4 * amended > total && open > 0)
    }
}

impl fmt::Display for Tally {
    fn fmt(&self, text: &mut fmt::Formatter<'_>) -> fmt::Result {
        let Tally { with_points, empty, amended, open } = self;
        let drawn = with_points + empty;
        write!(text, "{drawn} drawn ({empty} of them empty, {amended} amended), {open} refused by 12")
    }
}

/// How often each kind of calendar was met.
#[derive(Clone, Debug, Default)]
pub struct Kinds(BTreeMap<Kind, usize>);

impl Kinds {
    /// Takes down that one was met.
    pub fn add(&mut self, kind: Kind) {
        *self.0.entry(kind).or_default() += 1;
    }

    /// Says how often each was met, and stops if any was less often than this.
    pub fn assert_all_met(&self, least: usize, what: &str) {
        println!("{what}: {:?}", self.0);
        let is_rare = |kind: &Kind| self.0.get(kind).copied().unwrap_or(0) < least;
        let all = [&Kind::HOLDING[..], &Kind::IN_NONE, &Kind::BROKEN].concat();
        let rare: Vec<Kind> = all.into_iter().filter(is_rare).collect();
        assert!(rare.is_empty(), "{what}: {rare:?} less than {least} times");
    }
}

/// A way of more corners than this is long.
const LONG: usize = 20;

/// How often ways, refusals of ways, and convoys were met.
#[derive(Clone, Debug, Default)]
pub struct Ways(BTreeMap<&'static str, usize>);

impl Ways {
    /// Takes down what came of a question: the number returned, and what then stands in the front of the slices.
    pub fn add(&mut self, joints: &Joints, number: u32, way: &[u16], work: &[u16]) {
        let is_out_of_reach = || work[..joints.wet.len()].iter().all(|&steps| steps == 0);
        self.note(&[
            ("questions", true),
            ("shown", number == 0),
            ("of one corner", number == 0 && way.len() == 1),
            ("long", number == 0 && way.len() > LONG),
            ("with others as short", number == 0 && joints.is_tied(way, work)),
            ("no way", number == NO_WAY),
            ("from a dry start", number == NO_WAY && is_out_of_reach()),
            ("no corner", number == WAY_END),
            ("short slices", number == WAY_SLICE),
            ("no convoy", number == CONVOY),
        ]);
    }

    /// Takes down what else the question has shown: how each kind is called, and whether it was met.
    pub fn note(&mut self, met: &[(&'static str, bool)]) {
        for &(what, is_met) in met {
            *self.0.entry(what).or_default() += usize::from(is_met);
        }
    }

    /// Says how often each was met, and stops if any of these was met in less than one of so many questions.
    pub fn assert_met(&self, one_in: &[(&str, usize)], what: &str) {
        println!("{what}: {:?}", self.0);
        let questions = self.0.get("questions").copied().unwrap_or(0);
        let is_rare = |&&(kind, one_in): &&(&str, usize)| self.0[kind] * one_in < questions;
        let rare: Vec<_> = one_in.iter().filter(is_rare).collect();
        assert!(questions < FEW || rare.is_empty(), "{what}: {:?}, and not one in {rare:?}", self.0);
    }
}

#[cfg(test)]
mod tests {
    use super::*;
    use crate::{document, resounded};

    #[test]
    fn most_must_be_drawn_many_amended_and_some_refused() {
        let shows_enough =
            |with_points, empty, amended, open| Tally { with_points, empty, amended, open }.shows_enough();
        assert!(shows_enough(80, 10, 30, 10));
        assert!(!shows_enough(70, 10, 30, 20), "too many are refused");
        assert!(!shows_enough(60, 30, 30, 10), "too many are empty");
        assert!(!shows_enough(80, 10, 25, 10), "too few are amended");
        assert!(!shows_enough(100, 0, 30, 0), "none is refused");
        assert!(shows_enough(0, 0, 0, 99), "there are few");
    }

    #[test]
    fn surveys_are_taken_down_by_what_became_of_them() {
        let mut tally = Tally::default();
        tally.add_drawn(&document::centre_wet(), 6);
        tally.add_drawn(&resounded::dried(), 0);
        tally.add_open();
        assert_eq!(tally.to_string(), "2 drawn (1 of them empty, 1 amended), 1 refused by 12");
    }

    /// A hundred questions about the one wet corner of a survey, so many of them about no corner.
    fn asked(no_corner: usize) -> Ways {
        let joints = Joints::read(&document::one_corner_wet());
        let mut ways = Ways::default();
        for question in 0..100 {
            let number = if question < no_corner { WAY_END } else { 0 };
            ways.add(&joints, number, &[0], &[1, 0, 0, 0, 0, 0, 0, 0]);
        }
        ways
    }

    #[test]
    fn ways_that_were_met_often_enough_pass() {
        asked(10).assert_met(&[("no corner", 10), ("shown", 2), ("of one corner", 2)], "test");
    }

    #[test]
    #[should_panic(expected = "and not one in [(\"no corner\", 10)]")]
    fn ways_that_were_met_too_seldom_are_named() {
        asked(9).assert_met(&[("no corner", 10), ("shown", 2)], "test");
    }

    fn met(times: usize, but: Kind) -> Kinds {
        let all = [&Kind::HOLDING[..], &Kind::IN_NONE, &Kind::BROKEN].concat();
        let mut kinds = Kinds::default();
        all.into_iter()
            .flat_map(|kind| vec![kind; times - usize::from(kind == but)])
            .for_each(|kind| kinds.add(kind));
        kinds
    }

    #[test]
    fn kinds_that_were_met_often_enough_pass() {
        met(3, Kind::Late).assert_all_met(2, "test");
    }

    #[test]
    #[should_panic(expected = "test: [Touching] less than 3 times")]
    fn a_kind_that_was_met_too_seldom_is_named() {
        met(3, Kind::Touching).assert_all_met(3, "test");
    }

    #[test]
    #[should_panic(expected = "test: [Late] less than 1 times")]
    fn a_kind_that_was_never_met_is_named() {
        met(1, Kind::Late).assert_all_met(1, "test");
    }
}
