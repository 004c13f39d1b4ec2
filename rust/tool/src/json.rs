//! Answers as JSON: with `--json` a command prints one object on one line.

use std::fmt::Display;

use clearance::Refusal;
use serde_json::{json, Value};

/// The name of the option.
pub const JSON: &str = "json";

/// What a command answers: in words, which end with a line, or as an object.
pub trait Answer: Display {
    /// The object.
    fn object(&self) -> Value;
}

/// A refusal as an object.
pub fn refusal(refusal: Refusal, words: &str) -> Value {
    json!({ "refused": refusal.number(), "words": words })
}

/// An object as a command prints it.
pub fn line(object: &Value) -> String {
    format!("{object}\n")
}

#[cfg(test)]
mod tests {
    use super::*;

    #[test]
    fn an_object_is_one_line_with_its_names_in_order() {
        let object = json!({ "zone": "a \"wide\"\npool", "at": [1, 2] });
        assert_eq!(line(&object), "{\"zone\":\"a \\\"wide\\\"\\npool\",\"at\":[1,2]}\n");
        let refused = refusal(Refusal::TooDeep, "a cell of depth 10 is split");
        assert_eq!(line(&refused), "{\"refused\":4,\"words\":\"a cell of depth 10 is split\"}\n");
    }
}
