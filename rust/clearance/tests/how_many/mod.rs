//! How many random surveys a comparison has. `CLEARANCE_SMALL` and `CLEARANCE_LARGE` set it.

/// How many small surveys there are.
pub fn small() -> u64 {
    how_many("CLEARANCE_SMALL", 5_000)
}

/// How many surveys of every size there are.
pub fn large() -> u64 {
    how_many("CLEARANCE_LARGE", 1_000)
}

fn how_many(variable: &str, otherwise: u64) -> u64 {
    std::env::var(variable).map_or(otherwise, |text| text.parse().expect("a number"))
}
