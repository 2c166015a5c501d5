//! Tests of the readable text.

mod document;
mod forms;
mod mistakes;
mod naming;
mod round_trips;
mod samples;

use super::{made, shown};
use citronreef::records::{Correction, Day, Mark, Position};

/// The bytes of a text that can be made.
fn bytes_of(text: &str) -> Vec<u8> {
    made(text.as_bytes()).unwrap_or_else(|mistake| panic!("{mistake}, in {text}")).bytes()
}

/// What is said of a text that cannot be made.
fn wrong_with(text: impl AsRef<[u8]>) -> String {
    made(text.as_ref()).expect_err("a text with a mistake").to_string()
}

/// The case of document 01.
fn case() -> Day {
    Day {
        marks: vec![Mark { code: *b"IR", month: 3, year: 18, previous: 950_000, today: 950_200 }],
        corrections: vec![Correction { number: 7, mark: 0, price: 950_100 }; 2],
        positions: vec![Position { account: 11, mark: 0, lots: 10 }, Position { account: 12, mark: 0, lots: -4 }],
    }
}
