//! Surveys of which the way from a corner to another can be said by hand, and the order of refusals: document 02, "Can she get through?".

use crate::document::{level, one_corner_wet, wet_at};
use crate::joints::Due;
use crate::refusals::{AMENDMENT_PLACE, AMENDMENT_TABLE, NO_WAY, WAY_END, WAY_SLICE};
use crate::survey::{Octree, Record, BOX_SIZE};
use crate::Survey;

/// A survey asked about a way.
pub struct Known {
    /// What it shows. No other has this name.
    pub name: &'static str,
    /// The survey.
    pub survey: Survey,
    /// The question and the answer.
    pub due: Due,
}

/// Numbers below 10, as they are written here: of corners, or of steps plus one.
fn digits(text: &str) -> Vec<u16> {
    text.chars().map(|digit| digit.to_digit(10).expect("a digit") as u16).collect()
}

/// One leaf, in which these corners are wet. Corner n is in place n: at the upper ends of x, y and z by the bits of n.
fn leaf(wet: &str) -> Survey {
    let places: Vec<[u16; 3]> = digits(wet).into_iter().map(place).collect();
    wet_at(&[], &places, 1.0)
}

/// Where a corner of one leaf is.
pub(crate) fn place(corner: u16) -> [u16; 3] {
    [0, 1, 2].map(|axis| BOX_SIZE * (corner >> axis & 1))
}

/// One leaf as [`leaf`] has it, with corners sounded again: each with its sounding and its day.
fn resounded(wet: &str, amendments: &[(u16, f32, u16)]) -> Survey {
    let record = |&(corner, sounding, day): &(u16, f32, u16)| Record { place: place(corner), sounding, day };
    leaf(wet).amended(amendments.iter().map(record))
}

/// A survey and its answer: the start and the end, the way (empty if there is none), and the work of the first corners; the others are out of reach.
fn known_as(name: &'static str, survey: Survey, ends: &str, way: &str, work: &str) -> Known {
    let due = due(survey.corners.len() / Record::BYTES, ends, way, work);
    Known { name, survey, due }
}

/// What is due of a survey of so many corners, as [`known_as`] has it.
pub(crate) fn due(corners: usize, ends: &str, way: &str, work: &str) -> Due {
    let way = Some(digits(way)).filter(|way| !way.is_empty());
    let mut work = digits(work);
    work.resize(corners, 0);
    Due { ends: digits(ends).try_into().expect("a start and an end"), way, work }
}

/// All corners of one leaf.
const ALL: &str = "01234567";

/// All of them.
pub fn known() -> Vec<Known> {
    [leaves(), just_above_and_awash(), resoundings(), grids(), divided_edges()]
        .into_iter()
        .flatten()
        .collect()
}

/// One leaf with some corners wet. All of them lie on outer faces, so that none of these is drawn.
fn leaves() -> Vec<Known> {
    let known = |name, wet, ends, way, work| known_as(name, leaf(wet), ends, way, work);
    vec![
        known("across one leaf", ALL, "07", "0137", "12232334"),
        known("along one edge", ALL, "04", "04", "12232334"),
        known("around a dry corner", "0234567", "03", "023", "10232334"),
        known("around two dry corners", "034567", "03", "04573", "10052334"),
        // Of 1376, 1546 and 1576 the first; back, of 6451, 6731 and 6751, other corners.
        known("there", "134567", "16", "1376", "01023243"),
        known("and back", "134567", "61", "6451", "04032312"),
        known("a wet corner to itself", ALL, "00", "0", "12232334"),
        known("the one wet corner to itself", "5", "55", "5", "00000100"),
        known("a dry corner to itself", "0124", "77", "", ""),
        known("a dry start", "123", "03", "", ""),
        known("a dry end", "013", "07", "", "1203"),
        known("two corners that no edge joins", "0356", "03", "", "1"),
        known("two pools", "0167", "16", "", "21"),
    ]
}

/// One leaf with soundings at the clearance or next to it.
fn just_above_and_awash() -> Vec<Known> {
    let barely = leaf(ALL).at(1.0f32.next_down());
    vec![
        known_as("every sounding just above the clearance", barely, "07", "0137", "12232334"),
        known_as("awash everywhere", leaf(ALL).at(1.0), "03", "", ""),
        known_as("around a corner awash", resounded(ALL, &[(1, -0.0, 1)]), "03", "023", "10232334"),
    ]
}

/// One leaf with corners sounded again.
fn resoundings() -> Vec<Known> {
    let known = |name, wet, amendments: &[_], ends, way, work| {
        known_as(name, resounded(wet, amendments), ends, way, work)
    };
    vec![
        known("shut", "013", &[(1, -1.0, 1)], "03", "", "1"),
        known("opened", "03", &[(1, 1.0, 0)], "03", "013", "1203"),
        known("opened elsewhere", "013", &[(1, -1.0, 1), (2, 1.0, 1)], "03", "023", "1023"),
        known("opened by the later of one day", "03", &[(1, -1.0, 2), (1, 1.0, 2)], "30", "310", "3201"),
        known("not opened by the older", "03", &[(1, -1.0, 2), (1, 1.0, 1)], "30", "", "0001"),
        known("a start that was dredged", "1", &[(0, 1.0, 9)], "01", "01", "12"),
    ]
}

/// One split, all wet. Corner n is at n % 3, n / 3 % 3 and n / 9 on x, y and z, in halves of the box. It takes a step on one axis for each half.
fn grids() -> Vec<Known> {
    let at = |corner: u16| [corner % 3, corner / 3 % 3, corner / 9];
    let known = |name, ends: [u16; 2], way: &[u16]| {
        let steps = |corner| (0..3).map(|axis| at(ends[0])[axis].abs_diff(at(corner)[axis])).sum::<u16>();
        let work = (0..27).map(|corner| steps(corner) + 1).collect();
        let survey = Survey::new(&Octree::splitting(&[0]), |_| 1.0);
        Known { name, survey, due: Due { ends, way: Some(way.to_vec()), work } }
    };
    vec![
        known("through the whole box", [0, 26], &[0, 1, 2, 5, 8, 17, 26]),
        known("back through the whole box", [26, 0], &[26, 17, 8, 5, 2, 1, 0]),
        known("across the middle", [4, 22], &[4, 13, 22]),
        known("from side to side", [18, 8], &[18, 9, 0, 1, 2, 5, 8]),
    ]
}

/// The cells of the twin survey: the edge from (0, 0, 0), record 0, to (512, 0, 0), record 2, is divided at (256, 0, 0), record 1; the one from there to
/// (1024, 0, 0), record 3, is not.
fn divided_edges() -> Vec<Known> {
    let known = |name, wet: &[u16], ends, way, work| {
        let wet: Vec<[u16; 3]> = wet.iter().map(|&x| [x, 0, 0]).collect();
        known_as(name, wet_at(&[0, 1], &wet, 1.0), ends, way, work)
    };
    vec![
        known("a divided edge is no joint", &[0, 512, 1_024], "02", "", "1"),
        known("the halves of a divided edge are joints", &[0, 256, 512, 1_024], "03", "0123", "1234"),
        known("an edge that cells of one size have", &[0, 512, 1_024], "32", "32", "0021"),
    ]
}

/// A survey, ends and the lengths of the way slice and the work slice, to see which check refuses it where several would.
pub struct Several {
    /// The survey.
    pub survey: Survey,
    /// The start and the end.
    pub ends: [u32; 2],
    /// How many elements the way slice and the work slice have.
    pub rooms: [usize; 2],
    /// The refusal that is given, or 0.
    pub refusal: u32,
}

/// Each refusal in its order, 14, 15, 7, 8, 18, 19, 20: in most cases checks that stand after it would refuse too, in some it is the only one. The last
/// case is a way, in a pool that runs out of the box.
pub fn several() -> Vec<Several> {
    let case = |refusal, survey, ends, rooms| Several { survey, ends, rooms, refusal };
    let unsounded = || resounded("7", &[(0, f32::NAN, 1)]);
    let stray = || unsounded().amended([Record { place: [1; 3], sounding: f32::NAN, day: 0 }]);
    let part = || Survey { amendments: vec![0; 11], ..unsounded() };
    let one = one_corner_wet;
    let beyond = [[0, 8], [8, 0], [8, 8], [0, 46], [65_536, 0], [0, 65_543], [u32::MAX, u32::MAX]];
    let mut list = vec![
        case(1, Survey { cells: vec![], ..one() }, [0, 8], [0, 0]),
        case(2, Survey { corners: vec![], ..one() }, [0, 8], [0, 0]),
        case(AMENDMENT_TABLE, part().at(f32::NAN), [0, 8], [0, 0]),
        case(AMENDMENT_PLACE, stray().at(f32::NAN), [0, 8], [0, 0]),
        case(7, unsounded().at(f32::NAN), [0, 8], [0, 0]),
        case(8, one().at(f32::NAN), [0, 8], [0, 0]),
        case(8, leaf(ALL).at(-1_048_577.0), [0, 7], [8, 8]),
    ];
    for ends in beyond {
        list.extend([[0, 0], [7, 8], [8, 8]].map(|rooms| case(WAY_END, one(), ends, rooms)));
    }
    for rooms in [[0, 0], [7, 8], [8, 7], [1, 8], [8, 0]] {
        list.extend([[0, 7], [0, 0], [1, 1]].map(|ends| case(WAY_SLICE, one(), ends, rooms)));
    }
    list.extend([
        case(WAY_SLICE, level(1.0), [0, 0], [45, 46]),
        case(NO_WAY, one(), [0, 7], [8, 8]),
        case(NO_WAY, one(), [1, 1], [8, 9]),
        case(0, one(), [0, 0], [8, 8]),
        case(0, level(1.0), [0, 45], [46, 46]),
    ]);
    list
}

#[cfg(test)]
mod tests {
    use std::collections::BTreeSet;

    use super::*;
    use crate::joints::Joints;
    use crate::refusals::of_way;

    /// What is said by hand is what all ways say, where few corners are wet.
    #[test]
    fn all_ways_say_the_same() {
        let mut compared = 0;
        for Known { name, survey, due } in known() {
            let joints = Joints::read(&survey);
            if joints.wet_count() > 8 {
                continue;
            }
            let found = joints.due().into_iter().find(|other| other.ends == due.ends);
            if let Some(Due { way, work, .. }) = found {
                assert_eq!((way, work), (due.way, due.work), "{name}");
                compared += 1;
            }
        }
        assert!(compared > 20, "{compared} compared");
    }

    #[test]
    fn the_plain_checks_say_the_same() {
        let mut met = BTreeSet::new();
        for Known { name, survey, due } in known() {
            let refusal = if due.way.is_some() { 0 } else { NO_WAY };
            assert_eq!(of_way(&survey, due.ends.map(u32::from), [due.work.len(); 2]), refusal, "{name}");
            assert!(met.insert(name), "{name} is there twice");
        }
        for Several { survey, ends, rooms, refusal } in several() {
            assert_eq!(of_way(&survey, ends, rooms), refusal, "{ends:?}, {rooms:?}");
        }
    }
}
