//! What was timed, as tables.

use surveys::sized::Kind;

use crate::calls::Call;
use crate::growth::Growth;
use crate::timing::Timing;
use crate::{growth, limit, LARGE};

/// What was seen of one survey.
pub struct Row {
    pub kind: Kind,
    pub splits: usize,
    pub leaves: usize,
    pub points: usize,
    pub triangles: usize,
    /// The times of each call.
    pub times: [Timing; Call::ALL.len()],
    /// The proved calls of [`Call::BY_DRAW`], by the proved drawing alone.
    pub by_draw: [f64; Call::BY_DRAW.len()],
    /// The proved way of a convoy, by that of one boat.
    pub by_way: f64,
}

impl Row {
    /// A proved call of [`Call::BY_DRAW`], by the proved drawing alone.
    pub fn part_of_draw(&self, call: Call) -> f64 {
        let number = Call::BY_DRAW.into_iter().position(|known| known == call);
        self.by_draw[number.expect("a call that is timed against the drawing")]
    }
}

/// The time of each call in microseconds, proved and Rust, and their ratio; then those of proved calls to the proved drawing, and of the proved convoy to the
/// proved way.
pub fn print_times(rows: &[Row]) {
    println!(
        "time of a call in microseconds: proved, Rust, and proved / Rust; last, proved calls / proved draw or way\n"
    );
    print!("{:9} {:>6} {:>6} {:>6} {:>9}", "kind", "splits", "leaves", "points", "triangles");
    Call::ALL.into_iter().for_each(|call| print!(" | {:>26}", call_name(call)));
    Call::BY_DRAW.into_iter().for_each(|call| print!(" | {:>8} / draw", call_name(call)));
    println!(" | {:>8} / way", call_name(Call::Convoy));
    for row in rows {
        print!("{:9} {:6} {:6}", kind_name(row.kind), row.splits, row.leaves);
        print!(" {:6} {:9}", row.points, row.triangles);
        for Timing { proved, rust, ratio } in row.times {
            print!(" | {:9.2} {:9.2} {ratio:6.2}", proved / 1e3, rust / 1e3);
        }
        row.by_draw.into_iter().for_each(|ratio| print!(" | {ratio:15.2}"));
        println!(" | {:14.2}", row.by_way);
    }
}

/// For each kind and call, the time of a leaf in nanoseconds, and behind each but the first how it has grown
/// from the size before. The rows of a kind stand together.
pub fn print_growth(rows: &[Row], sizes: usize) {
    println!("\ntime of a leaf in nanoseconds by number of splits, and how much it is of the one before\n");
    print!("{:9} {:8} {:6}", "kind", "call", "");
    rows[..sizes].iter().for_each(|row| print!(" {:>15}", row.splits));
    println!();
    for of_kind in rows.chunks(sizes) {
        for call in Call::ALL {
            print_leaf_times(of_kind, call, "proved", |timing| timing.proved);
            print_leaf_times(of_kind, call, "Rust", |timing| timing.rust);
        }
    }
}

fn print_leaf_times(of_kind: &[Row], call: Call, maker: &str, time: impl Fn(&Timing) -> f64) {
    print!("{:9} {:8} {maker:6}", kind_name(of_kind[0].kind), call_name(call));
    let mut before = None;
    for row in of_kind {
        let leaf_time = time(&row.times[call as usize]) / row.leaves as f64;
        print!(
            " {leaf_time:8.1} {:>6}",
            before.map_or(String::new(), |before| format!("{:.2}", leaf_time / before))
        );
        before = Some(leaf_time);
    }
    println!();
}

/// The highest ratio of each call, of proved calls to the proved drawing, and of the proved convoy to the proved way, on large surveys and on those of all
/// sizes; and whether a way is too slow.
pub fn print_worst(rows: &[Row], sizes: &[usize]) {
    println!();
    for call in Call::ALL {
        print_highest(rows, sizes, call_name(call), "proved / Rust", |row| row.times[call as usize].ratio);
    }
    for call in Call::BY_DRAW {
        print_highest(rows, sizes, call_name(call), "proved / proved draw", |row| row.part_of_draw(call));
    }
    print_highest(rows, sizes, call_name(Call::Convoy), "proved / proved way", |row| row.by_way);
    if limit::is_too_slow(rows) {
        println!("FAILED: a way takes more than {} of the drawing", limit::MOST);
    }
}

fn print_highest(rows: &[Row], sizes: &[usize], call: &str, what: &str, ratio: impl Fn(&Row) -> f64) {
    let [large, all] = [&LARGE, sizes].map(|sizes| highest(rows, sizes, &ratio));
    let [smaller, larger] = LARGE;
    println!(
        "{call}: {what} is at most {large:.2} at {smaller} and {larger} splits, and {all:.2} at all sizes"
    );
}

/// The highest ratio over the rows of these sizes.
pub fn highest(rows: &[Row], sizes: &[usize], ratio: impl Fn(&Row) -> f64) -> f64 {
    rows.iter().filter(|row| sizes.contains(&row.splits)).map(ratio).fold(0.0, f64::max)
}

/// How the proved drawing of each kind grows, and which grows too fast.
pub fn print_drawing_growth(growths: &[Growth]) {
    let [smaller, larger] = LARGE;
    println!("\ntime of a leaf's proved drawing at {larger} splits, by that at {smaller}, in turns\n");
    for Growth { kind, growth } in growths {
        println!("{:9} {growth:6.2}", kind_name(*kind));
    }
    for failed in growths.iter().filter(|growth| growth.is_too_fast()) {
        println!("FAILED: {} grows by more than {} times", kind_name(failed.kind), growth::MOST);
    }
}

/// The name of a kind, as the tables have it.
pub fn kind_name(kind: Kind) -> &'static str {
    match kind {
        Kind::Random => "random",
        Kind::Corner => "corner",
        Kind::Plane => "plane",
        Kind::Ball => "ball",
        Kind::LongLoop => "long loop",
    }
}

/// The name of a call, as the tables have it.
pub fn call_name(call: Call) -> &'static str {
    match call {
        Call::Check => "check",
        Call::Enquire => "enquire",
        Call::Draw => "draw",
        Call::Volume => "volume",
        Call::Amended => "amended",
        Call::Calendar => "calendar",
        Call::Way => "way",
        Call::Convoy => "convoy",
    }
}

#[cfg(test)]
mod tests {
    use super::*;

    /// A row in which every call has the ratio, twice that by the drawing, and three times that by the way.
    fn row(kind: Kind, splits: usize, ratio: f64) -> Row {
        let times = Call::ALL.map(|_| Timing { proved: ratio, rust: 1.0, ratio });
        let by_draw = Call::BY_DRAW.map(|_| 2.0 * ratio);
        Row { kind, splits, leaves: 1, points: 0, triangles: 0, times, by_draw, by_way: 3.0 * ratio }
    }

    #[test]
    fn the_highest_ratio_is_that_of_the_sizes_asked_for() {
        let rows = [
            row(Kind::Ball, 1, 2.5),
            row(Kind::Ball, 64, 1.25),
            row(Kind::Plane, 1, 2.0),
            row(Kind::Plane, 256, 1.5),
        ];
        for (sizes, expected) in [(&[64][..], 1.25), (&[64, 256], 1.5), (&[1, 64, 256], 2.5)] {
            for call in Call::ALL {
                assert_eq!(highest(&rows, sizes, |row| row.times[call as usize].ratio), expected);
            }
            for call in Call::BY_DRAW {
                assert_eq!(highest(&rows, sizes, |row| row.part_of_draw(call)), 2.0 * expected);
            }
            assert_eq!(highest(&rows, sizes, |row| row.by_way), 3.0 * expected);
        }
    }
}
