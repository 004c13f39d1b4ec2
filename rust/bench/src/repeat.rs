//! One call made again and again, for a profiler to look at.

use std::error::Error;

use surveys::sized::Kind;

use crate::calls::{make, Call};
use crate::makers::{Proved, Rust};
use crate::subject::Subject;
use crate::{table, SEED};

/// Makes a call as often as the arguments say: kind, splits, call, `proved` or `rust`, times.
pub fn repeat(arguments: &[String]) -> Result<(), Box<dyn Error>> {
    let [kind, splits, call, maker, times] = arguments else {
        return Err("repeat KIND SPLITS CALL proved|rust TIMES".into());
    };
    let kind = Kind::ALL.into_iter().find(|&known| table::kind_name(known) == kind).ok_or("no such kind")?;
    let call = Call::ALL.into_iter().find(|&known| table::call_name(known) == call).ok_or("no such call")?;
    let make = match maker.as_str() {
        "proved" => make::<Proved>,
        "rust" => make::<Rust>,
        _ => return Err("the maker is proved or rust".into()),
    };
    let mut subject = Subject::new(surveys::sized::survey(kind, splits.parse()?, SEED));
    (0..times.parse::<u32>()?).for_each(|_| make(call, &mut subject));
    Ok(())
}
