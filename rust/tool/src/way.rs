//! What `way` says: a way for the hull's keel point from corner to corner, for one boat or for a convoy on one line, or why there is none.

use std::fmt;
use std::str::FromStr;

use clearance::{Passage, Refusal};
use serde_json::{json, Value};
use surveys::plain::records;
use surveys::refusals::out_of_range;
use surveys::Survey;

use crate::failure::Failure;
use crate::files::tables;
use crate::json::Answer;

/// Names of arguments: the two ends of a way.
pub const ENDS: [&str; 2] = ["START", "END"];

/// The record number of a corner that is not there: the library refuses it in its turn.
const NO_RECORD: u32 = u32::MAX;

/// A corner as the command line has it.
#[derive(Clone, Copy, Debug, PartialEq)]
pub enum Corner {
    /// By its record number.
    Record(u32),
    /// By its place.
    Place([u32; 3]),
}

impl FromStr for Corner {
    type Err = &'static str;

    fn from_str(text: &str) -> Result<Corner, &'static str> {
        let numbers: Option<Vec<u32>> = text.split(',').map(|number| number.parse().ok()).collect();
        match numbers.as_deref() {
            Some(&[record]) => Ok(Corner::Record(record)),
            Some(&[x, y, z]) => Ok(Corner::Place([x, y, z])),
            _ => Err("is no record number and no place x,y,z that fits"),
        }
    }
}

impl Corner {
    /// Its record number; one that no table has if there is no corner at its place.
    fn record(self, places: &[[u16; 3]]) -> u32 {
        match self {
            Corner::Record(record) => record,
            Corner::Place(place) => {
                let found = places.iter().position(|corner| corner.map(u32::from) == place);
                found.map_or(NO_RECORD, |record| record as u32)
            }
        }
    }
}

/// A way from a corner to a corner.
#[derive(Clone, Debug, PartialEq)]
pub struct Way {
    /// The clearances at which it is wet, in the order given: that of one boat, or those of a convoy.
    clearances: Vec<f32>,
    /// The record numbers and the places of its corners; it has at least one.
    corners: Vec<(u16, [u16; 3])>,
}

impl Way {
    /// How many steps it has.
    fn steps(&self) -> usize {
        self.corners.len() - 1
    }

    /// How long it is: the sum of the lengths of its edges.
    fn length(&self) -> u32 {
        self.corners.windows(2).map(|ends| distance(ends[0].1, ends[1].1)).sum()
    }

    /// The greatest clearance of a convoy; none for one boat. Of the two zeros it is +0, in whichever order they were given.
    fn greatest(&self) -> Option<f32> {
        let greatest = self.clearances.iter().copied().max_by(f32::total_cmp);
        greatest.filter(|_| is_convoy(&self.clearances))
    }
}

/// Whether these are the clearances of a convoy, and not that of one boat.
fn is_convoy(clearances: &[f32]) -> bool {
    clearances.len() > 1
}

/// A count of things in words.
fn counted(count: usize, thing: &str) -> String {
    format!("{count} {thing}{}", if count == 1 { "" } else { "s" })
}

/// The length of the edge between two places.
fn distance(one: [u16; 3], other: [u16; 3]) -> u32 {
    one.into_iter().zip(other).map(|(one, other)| u32::from(one.abs_diff(other))).sum()
}

impl fmt::Display for Way {
    fn fmt(&self, out: &mut fmt::Formatter) -> fmt::Result {
        for (record, place) in &self.corners {
            writeln!(out, "corner {record} at {}", spelled(place.map(u32::from)))?;
        }
        writeln!(out, "{}, {} long", counted(self.steps(), "step"), counted(self.length() as usize, "unit"))?;
        match self.greatest() {
            Some(greatest) => {
                writeln!(out, "convoy of {}; the greatest clearance is {greatest}", self.clearances.len())
            }
            None => Ok(()),
        }
    }
}

impl Answer for Way {
    fn object(&self) -> Value {
        let [start, end] =
            [self.corners.first(), self.corners.last()].map(|corner| corner.map(|(record, _)| record));
        let corner = |(record, place): &(u16, [u16; 3])| json!({ "record": record, "place": place });
        let mut object = json!({ "start": start, "end": end });
        match self.greatest() {
            Some(greatest) => {
                object["clearances"] = json!(self.clearances);
                object["greatest"] = json!(greatest);
            }
            None => object["clearance"] = json!(self.clearances[0]),
        }
        object["steps"] = json!(self.steps());
        object["length"] = json!(self.length());
        object["corners"] = self.corners.iter().map(corner).collect();
        object
    }
}

/// A place as the command line takes it.
fn spelled([x, y, z]: [u32; 3]) -> String {
    format!("{x},{y},{z}")
}

/// Finds the way between two corners of a survey that is wet at all of these clearances: that of one boat, or those of a convoy.
pub fn find(survey: &Survey, clearances: &[f32], ends: [Corner; 2]) -> Result<Way, Failure> {
    let places: Vec<[u16; 3]> = records(&survey.corners).map(|record| record.place).collect();
    let numbers = ends.map(|end| end.record(&places));
    let Passage { way, steps } = passage(survey, clearances, numbers).map_err(|refusal| match refusal {
        Refusal::Clearance if is_convoy(clearances) => {
            Failure::refused_for(refusal, &beyond_range(clearances))
        }
        Refusal::WayEnd => Failure::refused_for(refusal, &no_corner(ends, &places)),
        _ => refusal.into(),
    })?;
    let Some(way) = way else {
        return Err(Failure::refused_for(Refusal::NoWay, &no_way(survey, clearances, numbers, &steps)?));
    };
    let corners = way.into_iter().map(|record| (record, places[usize::from(record)])).collect();
    Ok(Way { clearances: clearances.to_vec(), corners })
}

/// A convoy of one boat has the way of that boat.
fn passage(survey: &Survey, clearances: &[f32], [start, end]: [u32; 2]) -> Result<Passage, Refusal> {
    clearance::convoy_to_vec(tables(survey), clearances, start, end)
}

/// Which clearances of a convoy are refused.
fn beyond_range(clearances: &[f32]) -> String {
    let fault = |(index, &clearance): (usize, &f32)| {
        out_of_range(clearance)
            .then(|| format!("clearance {} of {} is {clearance}", index + 1, clearances.len()))
    };
    clearances.iter().enumerate().filter_map(fault).collect::<Vec<String>>().join("; ")
}

/// Which end is no corner.
fn no_corner(ends: [Corner; 2], places: &[[u16; 3]]) -> String {
    let fault = |(name, end): (&str, Corner)| match end {
        Corner::Record(record) if record as usize >= places.len() => {
            Some(format!("{name} is record {record}, and the last record is {}", places.len() - 1))
        }
        Corner::Place(place) if end.record(places) == NO_RECORD => {
            Some(format!("{name} is the place {}, and no corner is there", spelled(place)))
        }
        _ => None,
    };
    ENDS.into_iter().zip(ends).filter_map(fault).collect::<Vec<String>>().join("; ")
}

/// Why there is no way. A way from a corner to itself exists exactly if it is wet.
fn no_way(
    survey: &Survey,
    clearances: &[f32],
    numbers: [u32; 2],
    steps: &[Option<u16>],
) -> Result<String, Refusal> {
    let is_dry = |end: u32| passage(survey, clearances, [end, end]).map(|itself| itself.way.is_none());
    let why = match (is_dry(numbers[0])?, is_dry(numbers[1])?) {
        (true, true) => "the start and the end are dry",
        (true, false) => "the start is dry",
        (false, true) => "the end is dry",
        (false, false) => "both are wet, but the end is out of reach",
    };
    let reached = steps.iter().flatten().count();
    let itself = if reached > 0 { ", the start included" } else { "" };
    let why = format!("{why}; from the start {reached} of {} corners can be reached{itself}", steps.len());
    if is_convoy(clearances) {
        Ok(format!("{why}; {}", alone(survey, clearances, numbers)?))
    } else {
        Ok(why)
    }
}

/// At which clearances of a convoy that has no way a boat alone has one. At the greatest she has none.
fn alone(survey: &Survey, clearances: &[f32], [start, end]: [u32; 2]) -> Result<String, Refusal> {
    let mut rising = clearances.to_vec();
    rising.sort_by(f32::total_cmp);
    rising.dedup();
    let (mut through, mut aground) = (Vec::new(), Vec::new());
    for clearance in rising {
        let passage = clearance::way_to_vec(tables(survey), clearance, start, end)?;
        let boats = if passage.way.is_some() { &mut through } else { &mut aground };
        boats.push(clearance.to_string());
    }
    Ok(if through.is_empty() {
        String::from("no boat has a way alone")
    } else {
        format!("a boat alone has a way at {}, and none at {}", listed(&through), listed(&aground))
    })
}

/// Some things in a row, with "and" before the last.
fn listed(things: &[String]) -> String {
    match things {
        [before @ .., last] if !before.is_empty() => format!("{} and {last}", before.join(", ")),
        _ => things.concat(),
    }
}

#[cfg(test)]
mod tests {
    use super::*;

    #[test]
    fn things_are_listed_with_and_before_the_last() {
        let cases: [(&[&str], &str); 4] = [
            (&[], ""),
            (&["10"], "10"),
            (&["10", "12"], "10 and 12"),
            (&["-1", "10", "12", "24.5"], "-1, 10, 12 and 24.5"),
        ];
        for (things, words) in cases {
            assert_eq!(listed(&things.iter().map(|&thing| thing.to_owned()).collect::<Vec<_>>()), words);
        }
    }

    /// The greatest does not depend on the order, for the two zeros neither; one boat has none.
    #[test]
    fn the_greatest_is_that_of_a_convoy_in_any_order() {
        let cases: [(&[f32], Option<f32>); 6] = [
            (&[7.0], None),
            (&[7.0, 7.0], Some(7.0)),
            (&[24.5, -30.0, 24.0], Some(24.5)),
            (&[-3.0, -1.5], Some(-1.5)),
            (&[-0.0, 0.0], Some(0.0)),
            (&[0.0, -0.0], Some(0.0)),
        ];
        for (clearances, greatest) in cases {
            let way = Way { clearances: clearances.to_vec(), corners: Vec::new() };
            assert_eq!(way.greatest().map(f32::to_bits), greatest.map(f32::to_bits), "{clearances:?}");
        }
    }
}
