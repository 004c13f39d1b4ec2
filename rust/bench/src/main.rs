//! Times the proved calls against the Rust drawing, on surveys of several kinds and sizes, and prints two tables:
//! the time of each call, with the proved volume, the proved drawing with 1,000 amendments, that by a calendar of 1,000
//! records and the proved way by the proved drawing alone, and the proved way of a convoy by that of one boat, and how the
//! time of a leaf grows with the survey; then the highest of these ratios, and how the proved drawing of each kind grows.
//! The exit status is 1 if one grows too fast, or a way across a large survey takes too much of the drawing's time.
//!
//!     cargo run --release -p bench [ROUNDS]
//!
//! Times are medians over so many rounds (101 unless said) in which both are timed one after the other. For a
//! profiler one call alone can be made many times:
//!
//!     cargo run --release -p bench -- repeat random 256 draw proved 1000

mod calls;
mod growth;
mod limit;
mod makers;
mod repeat;
mod subject;
mod table;
mod timing;

use std::error::Error;
use std::process::ExitCode;

use calls::Call;
use growth::Growth;
use subject::Subject;
use surveys::sized::Kind;
use table::Row;

/// The numbers of splits of large surveys, between which growth is judged.
const LARGE: [usize; 2] = [64, 256];

/// The numbers of splits to time.
const SIZES: [usize; 4] = [1, 8, LARGE[0], LARGE[1]];

/// The seed of all surveys, so that every run times the same ones.
const SEED: u64 = 1;

fn main() -> Result<ExitCode, Box<dyn Error>> {
    let arguments: Vec<String> = std::env::args().skip(1).collect();
    match arguments.first().map(String::as_str) {
        None => Ok(time_all(101)),
        Some("repeat") => repeat::repeat(&arguments[1..]).map(|()| ExitCode::SUCCESS),
        Some(rounds) => Ok(time_all(rounds.parse()?)),
    }
}

/// Times every kind and size, prints what was seen, and judges it.
fn time_all(rounds: usize) -> ExitCode {
    let sized = |kind| SIZES.map(|splits| row(kind, splits, rounds));
    let rows: Vec<Row> = Kind::ALL.into_iter().flat_map(sized).collect();
    table::print_times(&rows);
    table::print_growth(&rows, SIZES.len());
    table::print_worst(&rows, &SIZES);
    let growths = Kind::ALL.map(|kind| Growth::timed(kind, rounds));
    table::print_drawing_growth(&growths);
    ExitCode::from(u8::from(limit::is_too_slow(&rows) || growths.iter().any(Growth::is_too_fast)))
}

/// How many leaves a survey of so many splits has.
fn leaves(splits: usize) -> usize {
    1 + 7 * splits
}

fn row(kind: Kind, splits: usize, rounds: usize) -> Row {
    let mut subject = Subject::new(surveys::sized::survey(kind, splits, SEED));
    calls::compare(&subject);
    let times = Call::ALL.map(|call| calls::time(call, &mut subject, rounds));
    let mut by = |call, other| calls::proved_by_proved([call, other], &mut subject, rounds);
    let by_draw = Call::BY_DRAW.map(|call| by(call, Call::Draw));
    let by_way = by(Call::Convoy, Call::Way);
    Row {
        kind,
        splits,
        leaves: leaves(splits),
        points: subject.points(),
        triangles: subject.triangles(),
        times,
        by_draw,
        by_way,
    }
}
