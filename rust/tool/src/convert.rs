//! Corner tables from before amendments, whose records have no day: document 02, "Resounding a few corners".

use surveys::survey::Record;

/// The longest corner table of records without a day: 4,872 records.
const MOST_BYTES: usize = 48_720;

/// The table with day 0 in every record; or why these bytes are no corner table without days.
///
/// A length may be that of whole records of either size. The records of a corner table rise strictly; read in the other size they
/// hardly ever do, and a table that rises either way is refused.
pub fn dated(table: &[u8]) -> Result<Vec<u8>, &'static str> {
    let [rises_without_days, rises_with_days] =
        [Record::BYTES_WITHOUT_DAY, Record::BYTES].map(|size| rises(table, size));
    if table.is_empty() {
        Err("is empty")
    } else if rises_with_days && rises_without_days {
        Err("may have records of 10 or of 12 bytes: they rise either way")
    } else if rises_with_days {
        Err("has records of 12 bytes already")
    } else if !table.len().is_multiple_of(Record::BYTES_WITHOUT_DAY) {
        Err("is not whole records of 10 bytes")
    } else if table.len() > MOST_BYTES {
        Err("is over 48,720 bytes")
    } else if !rises_without_days {
        Err("is no corner table: its records don't rise strictly")
    } else {
        let day = 0u16.to_le_bytes();
        Ok(table.chunks_exact(Record::BYTES_WITHOUT_DAY).flat_map(|record| [record, &day].concat()).collect())
    }
}

/// Whether a table is whole records of this size, and their places rise strictly.
fn rises(table: &[u8], size: usize) -> bool {
    let place = |record: &[u8]| [4, 2, 0].map(|at| u16::from_le_bytes([record[at], record[at + 1]]));
    let places: Vec<[u16; 3]> = table.chunks_exact(size).map(place).collect();
    table.len().is_multiple_of(size) && places.is_sorted_by(|before, after| before < after)
}

#[cfg(test)]
mod tests {
    use super::*;
    use surveys::survey::without_days;
    use surveys::{document, generate, Survey};

    /// Corner tables of many lengths, all days 0.
    fn tables() -> impl Iterator<Item = Vec<u8>> {
        let known = [document::one_corner_wet(), document::twin(), document::level(0.0), document::full()];
        let long_loops = (0..3).map(generate::long_loop);
        let deep = (1..=10).map(document::chain);
        known.into_iter().chain(long_loops).chain(deep).map(|survey: Survey| survey.corners)
    }

    #[test]
    fn tables_get_day_0_and_are_known_for_what_they_are() {
        let mut of_either_length = 0;
        for table in tables() {
            let undated = without_days(&table);
            assert_eq!(dated(&undated).as_ref(), Ok(&table));
            assert_eq!(dated(&table), Err("has records of 12 bytes already"));
            of_either_length +=
                usize::from(undated.len().is_multiple_of(12) || table.len().is_multiple_of(10));
        }
        assert!(of_either_length >= 4, "{of_either_length} whose length does not tell");
    }

    #[test]
    fn what_is_no_such_table_is_named() {
        let undated = without_days(&document::twin().corners);
        let mut turned = undated.clone();
        turned.rotate_left(10);
        let rising_either_way: Vec<u8> = (0..30u16).flat_map(u16::to_le_bytes).collect();
        let too_long: Vec<u8> =
            (0..4_873u16).flat_map(|x| [&x.to_le_bytes()[..], &[0; 8]].concat()).collect();
        let cases: [(&[u8], &str); 6] = [
            (&[], "is empty"),
            (&undated[..459], "is not whole records of 10 bytes"),
            (&too_long, "is over 48,720 bytes"),
            (&turned, "is no corner table: its records don't rise strictly"),
            (&document::twin().cells[..60], "is no corner table: its records don't rise strictly"),
            (&rising_either_way, "may have records of 10 or of 12 bytes: they rise either way"),
        ];
        for (bytes, words) in cases {
            assert_eq!(dated(bytes), Err(words));
        }
        assert_eq!(dated(&too_long[..48_720]).map(|table| table.len()), Ok(58_464));
    }
}
