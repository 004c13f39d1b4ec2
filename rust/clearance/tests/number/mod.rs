//! What the tests compare outcomes by.

use clearance::Refusal;

/// The number of document 01's table for an outcome: 0 if nothing was refused.
pub fn number<T>(outcome: Result<T, impl Into<Refusal>>) -> u32 {
    outcome.map_or_else(|refused| refused.into().number(), |_| 0)
}
