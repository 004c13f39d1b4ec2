//! Trespasses: each leaves what was lent. This must end the process by a signal, or the tests of slices and of the stack show nothing.

use std::os::unix::process::ExitStatusExt;
use std::process::{Command, ExitStatus};

use surveys::calendars::Period;
use surveys::document;

use crate::guarded::{Guarded, Side};
use crate::number::number;
use crate::stack;

/// Set to the name of a trespass, for the process that commits it.
const TRESPASS: &str = "CLEARANCE_TRESPASS";

/// A table of which the last three bytes are missing: of a corner table the last day, which need not be read, and a part of the last sounding; of a
/// calendar a part of the last clearance. They would be on an inaccessible page, or the byte before the first is on one.
fn shortened(table: &[u8], side: Side) -> Guarded<u8> {
    Guarded::new(&table[..table.len() - 3], side).sealed()
}

/// Shows a way from the first of the 46 corners to the last, at a clearance at which all are wet, with slices of so many elements that are said to be of
/// 46 each.
///
/// # Safety
///
/// Unsound on purpose, if there are fewer than 46 elements.
unsafe fn way_with_more(tables: clearance::Survey, elements: [usize; 2]) -> u32 {
    let lent = elements.map(|count| Guarded::new(&vec![0u16; count], Side::After));
    let [way, work] = lent.each_ref().map(|slice| slice.first().cast_mut());
    let [way, work] = [way, work].map(|first| unsafe { std::slice::from_raw_parts_mut(first, 46) });
    number(clearance::way(tables, -2.0, 0, 45, way, work))
}

/// The same way for a convoy, with so many clearances that are said to be 16.
///
/// # Safety
///
/// Unsound on purpose, if there are fewer than 16.
unsafe fn convoy_with_more(tables: clearance::Survey, count: usize) -> u32 {
    let lent = Guarded::new(&vec![-2.0; count], Side::After).sealed();
    let clearances = unsafe { std::slice::from_raw_parts(lent.first(), 16) };
    number(clearance::convoy_to_vec(tables, clearances, 0, 45))
}

fn commit(trespass: &str) {
    if trespass == "use more stack" {
        return stack::use_more();
    }
    let survey = document::twin();
    let tables = clearance::Survey::new(&survey.cells, &survey.corners);
    let record = Period { from: 0, until: 1, clearance: 0.0 }.bytes();
    let side = if trespass == "read before" { Side::Before } else { Side::After };
    let [corners, calendar] = [&survey.corners, &record].map(|table| shortened(table, side));
    let first = corners.first();
    // SAFETY: unsound on purpose. Each leaves its slice by one byte or more, or writes to what is for reading only.
    unsafe {
        let whole_corners = || std::slice::from_raw_parts(first, survey.corners.len());
        let _ = match trespass {
            "read before" => u32::from(first.sub(1).read_volatile()),
            "read after" => u32::from(first.add(corners.len()).read_volatile()),
            "write to a table" => {
                first.cast_mut().write_volatile(0);
                0
            }
            "lend more corners than there are" => {
                number(clearance::check(clearance::Survey { corners: whole_corners(), ..tables }))
            }
            "lend more amendments than there are" => {
                number(clearance::check(tables.amended(whole_corners())))
            }
            "lend more of a calendar than there is" => {
                let whole = std::slice::from_raw_parts(calendar.first(), record.len());
                number(clearance::draw_by_calendar_to_vec(tables, whole, 0))
            }
            "lend more of a way slice than there is" => way_with_more(tables, [1, 46]),
            "lend more of a work slice than there is" => way_with_more(tables, [46, 45]),
            "lend more clearances than there are" => convoy_with_more(tables, 15),
            _ => panic!("no such trespass"),
        };
    }
}

fn after_committing(trespass: &str) -> ExitStatus {
    let this_test = std::env::current_exe().expect("this test");
    let mut child = Command::new(this_test);
    child.args(["--exact", "trespass::leaving_what_was_lent_ends_the_process"]).env(TRESPASS, trespass);
    child.output().expect("a child process").status
}

#[test]
fn leaving_what_was_lent_ends_the_process() {
    if let Ok(trespass) = std::env::var(TRESPASS) {
        return commit(&trespass);
    }
    const SIGABRT: i32 = 6; // from Rust's own handler, which knows the page below a stack
    const SIGSEGV: i32 = 11;
    let trespasses = [
        "read before",
        "read after",
        "write to a table",
        "lend more corners than there are",
        "lend more amendments than there are",
        "lend more of a calendar than there is",
        "lend more of a way slice than there is",
        "lend more of a work slice than there is",
        "lend more clearances than there are",
    ];
    for trespass in trespasses {
        assert_eq!(after_committing(trespass).signal(), Some(SIGSEGV), "{trespass}");
    }
    assert_eq!(after_committing("use more stack").signal(), Some(SIGABRT));
}
